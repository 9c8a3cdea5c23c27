// Answers the job or the question on standard input: answer check|run|replay|policy-check|policy-ask|policy-diff < input.json
package main

import (
	"errors"
	"fmt"
	"io"
	"os"
	"strings"

	"example.org/aamediate"
)

func ofJob(call func([]byte) ([]byte, error)) func([]byte) (aamediate.Answer, error) {
	return func(given []byte) (aamediate.Answer, error) {
		text, err := call(given)
		return aamediate.Answer{Text: text}, err
	}
}

func main() {
	calls := map[string]func([]byte) (aamediate.Answer, error){
		"check": ofJob(aamediate.Check), "run": ofJob(aamediate.Run), "replay": ofJob(aamediate.Replay),
		"policy-check": aamediate.PolicyCheck, "policy-ask": aamediate.PolicyAsk, "policy-diff": aamediate.PolicyDiff,
	}
	var call func([]byte) (aamediate.Answer, error)
	if len(os.Args) == 2 {
		call = calls[os.Args[1]]
	}
	if call == nil {
		fmt.Fprintln(os.Stderr, "usage: answer check|run|replay|policy-check|policy-ask|policy-diff")
		os.Exit(2)
	}
	given, err := io.ReadAll(os.Stdin)
	var found aamediate.Answer
	if err == nil {
		if found, err = call(given); err == nil {
			fmt.Fprint(os.Stderr, found.Said)
			_, err = os.Stdout.Write(found.Text)
		}
	}
	if err != nil {
		fmt.Fprintln(os.Stderr, strings.TrimSuffix(err.Error(), "\n"))
		var fault *aamediate.Fault
		if errors.As(err, &fault) {
			os.Exit(fault.Status)
		}
		os.Exit(3)
	}
	os.Exit(found.Status)
}

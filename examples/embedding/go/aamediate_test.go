package aamediate

import (
	"bytes"
	"errors"
	"strings"
	"sync"
	"testing"
)

const job = `{"policy":"profile web { /srv/** r, }","tasks":[{"label":"web","requests":[
	{"file":"/srv/a","mask":"r"}]}]}`

func TestAJobIsAnswered(t *testing.T) {
	text, err := Run([]byte(job))
	if err != nil || string(text) != "0 0 granted label=\"web\"\n" {
		t.Fatalf("%q, %v", text, err)
	}
}

func TestWhatIsNoJobIsRefused(t *testing.T) {
	for _, given := range [][]byte{nil, {}, []byte("{"), {255, 254}} {
		_, err := Check(given)
		var fault *Fault
		if !errors.As(err, &fault) || !fault.IsRefused() || !strings.HasPrefix(fault.Line, "job ") {
			t.Fatalf("%v", err)
		}
	}
}

func TestAQuestionIsAnswered(t *testing.T) {
	found, err := PolicyAsk([]byte(`{"files":[{"name":"web","text":"profile web { /srv/** r, }"}],"words":["r:/srv/a","r:/etc/a"]}`))
	if err != nil || found.Status != 4 || !strings.Contains(string(found.Text), `"request":"r:/srv/a","profile":"web","granted":true`) {
		t.Fatalf("%v, %v", found, err)
	}
}

func TestTwoPoliciesAreCompared(t *testing.T) {
	found, err := PolicyDiff([]byte(`{"old":{"files":[{"name":"a","text":"profile web { /srv/a r, }"}]},"new":{"files":[{"name":"b","text":"profile web { /srv/a rw, }"}]}}`))
	if err != nil || found.Status != 4 || !strings.Contains(string(found.Text), `"sign":"+","request":"w:/srv/a"`) {
		t.Fatalf("%v, %v", found, err)
	}
}

func TestWhatIsNoQuestionIsRefused(t *testing.T) {
	_, err := PolicyCheck([]byte(`{"file":[]}`))
	var fault *Fault
	if !errors.As(err, &fault) || fault.Status != 2 || !strings.Contains(fault.Line, "unknown member: file") {
		t.Fatalf("%v", err)
	}
}

func TestEightCallAtOnce(t *testing.T) {
	wanted, _ := Run([]byte(job))
	var all sync.WaitGroup
	for range [8]int{} {
		all.Add(1)
		go func() {
			defer all.Done()
			for range [100]int{} {
				if text, err := Run([]byte(job)); err != nil || !bytes.Equal(text, wanted) {
					t.Errorf("%q, %v", text, err)
				}
			}
		}()
	}
	all.Wait()
}

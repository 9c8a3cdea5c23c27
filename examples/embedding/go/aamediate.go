// Package aamediate calls libaamediate: the bytes of a job or of a question in, the text of a command of aamediate or aapolicy
// out.
package aamediate

/*
#cgo LDFLAGS: -laamediate
#include <aamediate.h>

typedef uint32_t call(const uint8_t *, size_t, uint8_t *, size_t, uint8_t *, size_t, struct aamediate_sizes *);

static uint32_t make(call *does, const uint8_t *job, size_t job_size, uint8_t *text, size_t text_size, uint8_t *fault,
                     size_t fault_size, struct aamediate_sizes *sizes) {
    return does(job, job_size, text, text_size, fault, fault_size, sizes);
}
*/
import "C"

import "unsafe"

// A Fault says why there is no answer: what the command says on standard error, and its exit status.
type Fault struct {
	Line   string
	Status int
}

func (fault *Fault) Error() string { return fault.Line }

// IsRefused says whether the job, the question or a policy is at fault, and not the machine.
func (fault *Fault) IsRefused() bool {
	return fault.Status == C.AAMEDIATE_REFUSED || fault.Status == C.AAMEDIATE_NO_QUESTION
}

// An Answer is what aapolicy prints, how it ends (4 where a request is denied or policies differ, 1 where a file is refused), and what it warns of.
type Answer struct {
	Text   []byte
	Status int
	Said   string
}

// What is tried first, in bytes, and for each byte that is given: mostly enough. Where it is too little, all is done again.
const room, roomAByte = 4096, 8

// first is where a slice begins. Of an empty one that is a byte of its own, since no pointer may be nil.
func first(bytes []byte) *C.uint8_t {
	if len(bytes) == 0 {
		bytes = make([]byte, 1)
	}
	return (*C.uint8_t)(unsafe.Pointer(&bytes[0]))
}

func answer(call *C.call, given []byte) (Answer, error) {
	text, said := make([]byte, room+roomAByte*len(given)), make([]byte, room)
	var sizes C.struct_aamediate_sizes
	for {
		status := int(C.make(call, first(given), C.size_t(len(given)), first(text), C.size_t(len(text)), first(said), C.size_t(len(said)), &sizes))
		textSize, saidSize := int(sizes.text), int(sizes.fault)
		if textSize <= len(text) && saidSize <= len(said) {
			// (what isn't answered has no text)
			if status != C.AAMEDIATE_ANSWERED && textSize == 0 {
				return Answer{}, &Fault{string(said[:saidSize]), status}
			}
			return Answer{text[:textSize], status, string(said[:saidSize])}, nil
		}
		if textSize > len(text) {
			text = make([]byte, textSize)
		}
		if saidSize > len(said) {
			said = make([]byte, saidSize)
		}
	}
}

func textOf(call *C.call, job []byte) ([]byte, error) {
	found, err := answer(call, job)
	return found.Text, err
}

// Check gives what `aamediate check` writes for the bytes of a job.
func Check(job []byte) ([]byte, error) { return textOf((*C.call)(C.aamediate_check), job) }

// Run gives what `aamediate run` writes for the bytes of a job.
func Run(job []byte) ([]byte, error) { return textOf((*C.call)(C.aamediate_run), job) }

// Replay gives what `aamediate replay` writes for the bytes of a job.
func Replay(job []byte) ([]byte, error) { return textOf((*C.call)(C.aamediate_replay), job) }

// PolicyCheck gives what `aapolicy check --json` prints of the files of a question.
func PolicyCheck(question []byte) (Answer, error) {
	return answer((*C.call)(C.aapolicy_check), question)
}

// PolicyAsk gives what `aapolicy ask --json` prints to the words of a question.
func PolicyAsk(question []byte) (Answer, error) { return answer((*C.call)(C.aapolicy_ask), question) }

// PolicyDiff gives what `aapolicy diff --json` prints of the two sides of a question.
func PolicyDiff(question []byte) (Answer, error) { return answer((*C.call)(C.aapolicy_diff), question) }

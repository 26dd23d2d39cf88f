// A recorder for a store's test, to copy: it writes a history file for abd.
package main

import (
	"encoding/json"
	"fmt"
	"io"
	"regexp"
	"sync"
	"unicode/utf8"
)

const maxCalls, maxClient, maxValue = 1_000_000, 65_535, 256

var lawfulKey = regexp.MustCompile(`^[A-Za-z0-9._-]{1,64}$`)

// Recorder writes a history. All goroutines of a run share one. Its lock is the run's one clock: a call precedes another if its
// response was recorded before the other's invocation. Give it a file without a buffer: what was recorded then stays if the process dies.
// What abd would refuse is refused here, at the call that makes it: the error says what is wrong, and nothing is written.
type Recorder struct {
	mutex      sync.Mutex
	lines      *json.Encoder
	calls      int
	lastClient int
	pending    map[int]*pendingCall
	busy       map[int]int
}

// A call without a response.
type pendingCall struct {
	client  int
	does    string
	isNoted bool
}

type row map[string]any // encoded in the byte order of its keys: abd reads such lines fastest

// NewRecorder writes the header.
func NewRecorder(file io.Writer) (*Recorder, error) {
	lines := json.NewEncoder(file)
	lines.SetEscapeHTML(false)
	recorder := Recorder{lines: lines, pending: map[int]*pendingCall{}, busy: map[int]int{}}
	return &recorder, lines.Encode(row{"abd": "history", "version": 1})
}

// NewClient is a client's name that nobody has: for each goroutine, and for one whose last call got no answer.
func (r *Recorder) NewClient() (int, error) {
	r.mutex.Lock()
	defer r.mutex.Unlock()
	if err := inRange("client", r.lastClient+1, 1, maxClient); err != nil {
		return 0, err
	}
	r.lastClient++
	return r.lastClient, nil
}

// InvokeRead is called before the call's first message goes out. It returns the number of the call.
func (r *Recorder) InvokeRead(client int, key string) (int, error) {
	return r.invoke(client, key, "read", row{})
}

// InvokeWrite is the same for a write.
func (r *Recorder) InvokeWrite(client int, key, value string) (int, error) {
	if err := testValue(value); err != nil {
		return 0, err
	}
	return r.invoke(client, key, "write", row{"value": value})
}

// Note is only for a store with tags: the tag of a pending call. Numbers above 1,000,000 want rank_tags.py afterwards.
func (r *Recorder) Note(call, number, writer int) error {
	r.mutex.Lock()
	defer r.mutex.Unlock()
	pending, err := r.find(call)
	if err != nil {
		return err
	}
	if number < 0 {
		return fmt.Errorf("number %d should be 0 or more", number)
	}
	if err := inRange("writer", writer, 0, maxClient); err != nil {
		return err
	}
	if pending.isNoted {
		return fmt.Errorf("call %d has a note", call)
	}
	pending.isNoted = true
	return r.lines.Encode(row{"call": call, "number": number, "row": "note", "writer": writer})
}

// RespondRead is called after the answer has come, before the caller is told. The value is nil if the key was absent.
func (r *Recorder) RespondRead(call int, value *string) error {
	if value != nil {
		if err := testValue(*value); err != nil {
			return err
		}
	}
	return r.respond(call, "read", row{"call": call, "row": "respond", "value": value})
}

// RespondWrite is the same for a write.
func (r *Recorder) RespondWrite(call int) error {
	return r.respond(call, "write", row{"call": call, "row": "respond"})
}

func (r *Recorder) invoke(client int, key, does string, line row) (int, error) {
	r.mutex.Lock()
	defer r.mutex.Unlock()
	if err := inRange("client", client, 1, maxClient); err != nil {
		return 0, err
	}
	if !lawfulKey.MatchString(key) {
		return 0, fmt.Errorf("key %q should be 1 to 64 letters, digits, '.', '_' or '-'", key)
	}
	if call, isBusy := r.busy[client]; isBusy {
		return 0, fmt.Errorf("client %d has call %d pending: after a call without an answer take a new client", client, call)
	}
	if r.calls == maxCalls {
		return 0, fmt.Errorf("a history has at most 1,000,000 calls")
	}
	call := r.calls
	r.calls++
	r.pending[call] = &pendingCall{client: client, does: does}
	r.busy[client] = call
	if client > r.lastClient {
		r.lastClient = client
	}
	line["call"], line["client"], line["do"], line["key"], line["row"] = call, client, does, key, "invoke"
	return call, r.lines.Encode(line)
}

func (r *Recorder) respond(call int, does string, line row) error {
	r.mutex.Lock()
	defer r.mutex.Unlock()
	pending, err := r.find(call)
	if err != nil {
		return err
	}
	if pending.does != does {
		return fmt.Errorf("call %d is a %s, not a %s", call, pending.does, does)
	}
	delete(r.pending, call)
	delete(r.busy, pending.client)
	return r.lines.Encode(line)
}

func (r *Recorder) find(call int) (*pendingCall, error) {
	if pending, isPending := r.pending[call]; isPending {
		return pending, nil
	}
	return nil, fmt.Errorf("call %d isn't pending", call)
}

func inRange(what string, number, least, most int) error {
	if number < least || number > most {
		return fmt.Errorf("%s %d should be a number from %d to %d", what, number, least, most)
	}
	return nil
}

func testValue(value string) error {
	if len(value) > maxValue {
		return fmt.Errorf("a value has %d bytes, and should have at most %d", len(value), maxValue)
	}
	if !utf8.ValidString(value) {
		return fmt.Errorf("value %q is not UTF-8", value)
	}
	return nil
}

// Names gives names to keys or values that no history takes: with NewNames("k"), Of("user:17") is k0, and the same each time.
type Names struct {
	mutex  sync.Mutex
	prefix string
	names  map[string]string
	texts  []string
}

// NewNames begins with no name.
func NewNames(prefix string) *Names {
	return &Names{prefix: prefix, names: map[string]string{}}
}

// Of is the name of a key or a value.
func (n *Names) Of(text string) string {
	n.mutex.Lock()
	defer n.mutex.Unlock()
	if _, isKnown := n.names[text]; !isKnown {
		n.names[text] = fmt.Sprintf("%s%d", n.prefix, len(n.texts))
		n.texts = append(n.texts, text)
	}
	return n.names[text]
}

// Lines has each name and what it stands for: to print after the run.
func (n *Names) Lines() []string {
	n.mutex.Lock()
	defer n.mutex.Unlock()
	var lines []string
	for _, text := range n.texts {
		lines = append(lines, n.names[text]+" "+text)
	}
	return lines
}

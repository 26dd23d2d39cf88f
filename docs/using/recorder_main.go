package main

import (
	"bytes"
	"fmt"
	"log"
	"math/rand"
	"os"
	"strings"
	"sync"
)

type pair struct {
	number, writer int
	value          *string
}

var (
	lock  sync.Mutex
	pairs = map[string]pair{}
)

// Each refusal, at the call that makes it; nothing is written then.
func refusals() {
	var file bytes.Buffer
	recorder := got(NewRecorder(&file))
	read := got(recorder.InvokeRead(7, "x"))
	write := got(recorder.InvokeWrite(65_535, "Aa0._-", strings.Repeat("é", 128)))
	must(recorder.Note(write, 1_000_001, 65_535))
	written := file.String()
	invoke := func(client int, key string) error { return second(recorder.InvokeRead(client, key)) }
	value := func(value string) error { return second(recorder.InvokeWrite(1, "x", value)) }
	refused(invoke(0, "x"), "client 0 should be a number from 1 to 65535")
	refused(invoke(65_536, "x"), "client 65536 should be a number from 1 to 65535")
	refused(invoke(7, "x"), "client 7 has call 0 pending: after a call without an answer take a new client")
	refused(invoke(1, "user:17"), `key "user:17" should be 1 to 64 letters, digits, '.', '_' or '-'`)
	refused(invoke(1, ""), `key "" should be 1 to 64 letters, digits, '.', '_' or '-'`)
	refused(invoke(1, "x\n"), `key "x\n" should be 1 to 64 letters, digits, '.', '_' or '-'`)
	refused(invoke(1, strings.Repeat("x", 65)), `key "`+strings.Repeat("x", 65)+`" should be 1 to 64 letters, digits, '.', '_' or '-'`)
	refused(value(strings.Repeat("é", 128)+"e"), "a value has 257 bytes, and should have at most 256")
	refused(value("\xff"), `value "\xff" is not UTF-8`)
	refused(recorder.RespondWrite(read), "call 0 is a read, not a write")
	refused(recorder.RespondRead(write, nil), "call 1 is a write, not a read")
	refused(recorder.RespondWrite(2), "call 2 isn't pending")
	refused(recorder.Note(write, 1, 1), "call 1 has a note")
	refused(recorder.Note(read, -1, 1), "number -1 should be 0 or more")
	refused(recorder.Note(read, 1, 65_536), "writer 65536 should be a number from 0 to 65535")
	refused(second(recorder.NewClient()), "client 65536 should be a number from 1 to 65535")
	recorder.calls = maxCalls
	refused(invoke(1, "x"), "a history has at most 1,000,000 calls")
	if file.String() != written {
		log.Fatal("a refused call was written")
	}
	must(recorder.RespondRead(read, nil))
	refused(recorder.RespondRead(read, nil), "call 0 isn't pending")
}

func names() {
	keys := NewNames("k")
	named := keys.Of("user:17") + keys.Of("4") + keys.Of("user:17")
	if lines := strings.Join(keys.Lines(), ","); named != "k0k1k0" || lines != "k0 user:17,k1 4" {
		log.Fatal(named, lines)
	}
}

// A goroutine's calls, each value once. One in twenty gets no answer: its goroutine goes on as a new client.
func calls(number int, recorder *Recorder) {
	client := got(recorder.NewClient())
	for turn := 0; turn < 100; turn++ {
		key, isAnswered := []string{"x", "y"}[rand.Intn(2)], rand.Intn(20) > 0
		if rand.Intn(2) == 0 {
			write(client, key, fmt.Sprintf("\"%d\"\t\\%d é", number, turn), isAnswered, recorder)
		} else {
			read(client, key, isAnswered, recorder)
		}
		if !isAnswered {
			client = got(recorder.NewClient())
		}
	}
}

func write(client int, key, value string, isAnswered bool, recorder *Recorder) {
	call := got(recorder.InvokeWrite(client, key, value))
	if isAnswered || rand.Intn(2) == 0 {
		lock.Lock()
		number := pairs[key].number + 1
		must(recorder.Note(call, number, client))
		pairs[key] = pair{number, client, &value}
		lock.Unlock()
	}
	if isAnswered {
		must(recorder.RespondWrite(call))
	}
}

func read(client int, key string, isAnswered bool, recorder *Recorder) {
	call := got(recorder.InvokeRead(client, key))
	lock.Lock()
	found := pairs[key]
	lock.Unlock()
	must(recorder.Note(call, found.number, found.writer))
	if isAnswered {
		must(recorder.RespondRead(call, found.value))
	}
}

func refused(err error, words string) {
	if err == nil || err.Error() != words {
		log.Fatalf("%v, not %s", err, words)
	}
}

func second(_ int, err error) error {
	return err
}

func must(err error) {
	if err != nil {
		log.Fatal(err)
	}
}

func got[T any](it T, err error) T {
	must(err)
	return it
}

// What the recorder refuses, and four goroutines that call a map with one lock: go run recorder.go recorder_main.go > run.history &&
// abd justify run.history
func main() {
	refusals()
	names()
	recorder := got(NewRecorder(os.Stdout))
	var clients sync.WaitGroup
	for number := 1; number <= 4; number++ {
		clients.Add(1)
		go func(number int) {
			defer clients.Done()
			calls(number, recorder)
		}(number)
	}
	clients.Wait()
}

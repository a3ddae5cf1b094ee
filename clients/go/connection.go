package zanstore

import (
	"bytes"
	"encoding/json"
	"errors"
	"fmt"
	"net"
	"os"
	"time"
)

// ErrNoAnswer says that the server sent a line that is no answer.
var ErrNoAnswer = errors.New("the server sent a line that is no answer")
var errEnded = errors.New("the connection ended before an answer")

// Refused says that the server refused a request. After any number but 12 a write was not made.
type Refused struct {
	Number int
	Name   string
}

func (r Refused) Error() string { return fmt.Sprint(r.Number, " ", r.Name) }

// Event is a change, which is "touch" or "delete".
type Event struct {
	Place         uint64
	Change, Tuple string
}

type object map[string]any

type answer struct {
	Zookie, Heartbeat, Name string
	Member                  *bool
	Sets                    [][]string
	Events                  []Event
	Number                  int `json:"error"` // 0 where nothing was refused
}

// Whether it has the members of an answer to such a request, or is a refusal.
func (a answer) fits(request object) bool {
	switch {
	case a.Number != 0:
		return a.Name != ""
	case request["op"] == "check":
		return a.Member != nil && a.Zookie != ""
	case request["op"] == "read":
		return a.Sets != nil && a.Zookie != ""
	case request["op"] == "watch":
		return a.Events != nil && a.Heartbeat != ""
	}
	return a.Zookie != ""
}

// A connection, and what has come by it: closed once it ended.
type connection struct {
	net.Conn
	came chan []byte
}

func connect(address string, limit time.Duration) (*connection, error) {
	socket, err := net.DialTimeout("tcp", address, limit)
	if err != nil {
		return nil, err
	}
	c := &connection{socket, make(chan []byte)}
	go func() {
		defer close(c.came)
		for {
			some := make([]byte, 4096)
			count, err := socket.Read(some)
			if err != nil {
				return
			}
			c.came <- some[:count]
		}
	}()
	return c, nil
}

func (c *connection) end() {
	c.Close()
	for range c.came { // so that the reader ends
	}
}

// Whether it still stands, and nothing has come that nobody asked for.
func (c *connection) isQuiet() bool {
	select {
	case <-c.came:
		return false
	default:
		return true
	}
}

// The answers to requests that are sent at once.
func (c *connection) ask(requests []object, limit time.Duration) (found []answer, err error) {
	var lines bytes.Buffer
	for _, request := range requests {
		if err = json.NewEncoder(&lines).Encode(request); err != nil { // one line, with its line feed
			return
		}
	}
	c.SetWriteDeadline(time.Now().Add(limit))
	if _, err = c.Write(lines.Bytes()); err != nil {
		return
	}
	late := time.NewTimer(limit)
	defer late.Stop()
	for rest := []byte{}; ; {
		select {
		case some, stands := <-c.came:
			if !stands {
				return nil, errEnded
			}
			if rest = append(rest, some...); rest[len(rest)-1] != '\n' {
				continue
			}
			if found, err = answersOf(found, rest, requests); err != nil || len(found) == len(requests) {
				return
			}
			rest = nil
		case <-late.C:
			return nil, os.ErrDeadlineExceeded
		}
	}
}

// The answers that were found, and those of some whole lines.
func answersOf(found []answer, lines []byte, requests []object) ([]answer, error) {
	for _, line := range bytes.SplitAfter(lines[:len(lines)-1], []byte("\n")) {
		var one answer
		if len(found) == len(requests) || json.Unmarshal(line, &one) != nil || !one.fits(requests[len(found)]) {
			return nil, ErrNoAnswer
		}
		found = append(found, one)
	}
	return found, nil
}

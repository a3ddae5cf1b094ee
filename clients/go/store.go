// Package zanstore is a client of zanstore, which needs no other module.
package zanstore

import (
	"errors"
	"strings"
	"sync"
	"time"
)

const collected, precondition, unsure, full = 8, 9, 12, 15

// How many lines are sent before their answers are read, so few that those always fit on the way; how many tuplesets a read has, and usersets a check.
const ahead, setsOfRead, usersets = 64, 16, 4096

var again = map[int]bool{10: true, 11: true, 14: true, full: true} // Busy, Aborted, NoMemory, Full: nothing was done, and the same may be sent again

// Freshness says which place answers: that of a token at least, or exactly; if both are empty, the latest.
type Freshness struct{ AtLeast, Exact string }

func (f Freshness) add(request object) object {
	if f.AtLeast != "" {
		request["at_least"] = f.AtLeast
	}
	if f.Exact != "" {
		request["exact"] = f.Exact
	}
	return request
}

// Condition is one of a write. Since, Exists and Absent make it.
type Condition struct {
	Tuple string `json:"tuple"`
	Since string `json:"since,omitempty"`
	Want  string `json:"want,omitempty"`
}

// Since is met if no write after the token's place has changed the tuple.
func Since(tuple, token string) Condition { return Condition{Tuple: tuple, Since: token} }
func Exists(tuple string) Condition       { return Condition{Tuple: tuple, Want: "exists"} }
func Absent(tuple string) Condition       { return Condition{Tuple: tuple, Want: "absent"} }

// Write has the tuples to touch and to delete, and the conditions.
type Write struct {
	Touch, Delete []string
	Conditions    []Condition
}

func (w Write) request() object {
	changes := []object{}
	for _, tuple := range w.Touch {
		changes = append(changes, object{"op": "touch", "tuple": tuple})
	}
	for _, tuple := range w.Delete {
		changes = append(changes, object{"op": "delete", "tuple": tuple})
	}
	return object{"op": "write", "changes": changes, "conditions": append([]Condition{}, w.Conditions...)}
}

// Whether it stands once at most where it was sent twice.
func (w Write) isOnce() bool {
	for _, condition := range w.Conditions {
		for _, tuple := range w.Touch {
			if condition.Since != "" && condition.Tuple == tuple {
				return true
			}
		}
	}
	return false
}

// Store is a session with a server, whose connection is made anew where it ended. Goroutines may share it: one of them asks at a time, and the others wait.
type Store struct {
	Address string
	Limit   time.Duration // for a connection, and for answers
	Tries   int           // how often a request is sent at most
	lock    sync.Mutex
	kept    *connection // nil where there is none
}

// New is a store with limits that fit most uses. Nothing is sent yet.
func New(address string) *Store { return &Store{Address: address, Limit: 30 * time.Second, Tries: 8} }

// Close ends the connection. A later request makes another.
func (s *Store) Close() {
	s.lock.Lock()
	defer s.lock.Unlock()
	if s.kept != nil {
		s.kept.end()
		s.kept = nil
	}
}

// The answers to requests that are sent at once. After an error nobody knows whether a write stands.
func (s *Store) ask(requests []object) (found []answer, err error) {
	s.lock.Lock()
	defer s.lock.Unlock()
	c := s.kept
	s.kept = nil // put back only after whole answers
	if c != nil && !c.isQuiet() {
		c.end()
		c = nil
	}
	if c == nil {
		if c, err = connect(s.Address, s.Limit); err != nil {
			return
		}
	}
	if found, err = c.ask(requests, s.Limit); err != nil {
		c.end()
		return
	}
	s.kept = c
	return
}

// Whether the same may be sent again. A check that is `Full` has met too many usersets, and would meet them again.
func helps(refused Refused, request object, mayRepeat bool) bool {
	if refused.Number == full && request["op"] == "check" {
		return false
	}
	return again[refused.Number] || mayRepeat && refused.Number == unsure
}

// Asks, and again after a pause where that helps. `mayRepeat`: also where the first one may have been done.
func (s *Store) patiently(mayRepeat bool, requests ...object) ([]answer, error) {
	answers, isAnswered := make([]answer, len(requests)), make([]bool, len(requests))
	for number := 1; ; number++ {
		waiting, asked := []int{}, []object{}
		for index, request := range requests {
			if !isAnswered[index] {
				waiting, asked = append(waiting, index), append(asked, request)
			}
		}
		found, last := s.ask(asked)
		if last != nil && (!mayRepeat || last == ErrNoAnswer) {
			return nil, last
		}
		for at, one := range found {
			refused := Refused{one.Number, one.Name}
			if one.Number == 0 {
				answers[waiting[at]], isAnswered[waiting[at]] = one, true
			} else if last = refused; !helps(refused, asked[at], mayRepeat) {
				return nil, refused
			}
		}
		if last == nil {
			return answers, nil
		}
		if number >= s.Tries {
			return nil, last
		}
		if pause := 25 * time.Millisecond << number; number < 7 {
			time.Sleep(pause)
		} else {
			time.Sleep(2 * time.Second)
		}
	}
}

func (s *Store) one(mayRepeat bool, request object) (answer, error) {
	found, err := s.patiently(mayRepeat, request)
	if err != nil {
		return answer{}, err
	}
	return found[0], nil
}

// Does work that reads at one place, and anew if the horizon passes that meanwhile.
func (s *Store) atOnePlace(fresh Freshness, work func() error) error {
	for number := 1; ; number++ {
		err := work()
		var refused Refused
		if !errors.As(err, &refused) || refused.Number != collected || fresh.Exact != "" || number >= s.Tries {
			return err
		}
	}
}

// Write gives the token of the write. Only with a condition Since on a tuple that it touches it is sent again after `12 Unsure` or a lost connection: it then
// stands once at most, and `9` may mean that it stands.
func (s *Store) Write(w Write) (token string, err error) {
	found, err := s.one(w.isOnce(), w.request())
	return found.Zookie, err
}

// Check says whether the user of the tuple is in the userset of its object and relation, at the place of the token that it gives.
func (s *Store) Check(tuple string, fresh Freshness) (member bool, token string, err error) {
	found, err := s.one(true, fresh.add(object{"op": "check", "tuple": tuple}))
	return err == nil && *found.Member, found.Zookie, err
}

// CheckMany makes the checks of one or more tuples at one place: that of the first, which the others name, and are sent without a wait between them.
func (s *Store) CheckMany(tuples []string, fresh Freshness) (members []bool, token string, err error) {
	if len(tuples) == 0 {
		return nil, "", TextError("no tuple to check")
	}
	err = s.atOnePlace(fresh, func() error {
		member, place, err := s.Check(tuples[0], fresh)
		members, token = []bool{member}, place
		for err == nil && len(members) < len(tuples) {
			requests := []object{}
			for at := len(members); at < len(tuples) && len(requests) < ahead; at++ {
				requests = append(requests, object{"op": "check", "tuple": tuples[at], "exact": token})
			}
			var found []answer
			found, err = s.patiently(true, requests...)
			for _, one := range found {
				members = append(members, *one.Member)
			}
		}
		return err
	})
	return
}

// Read gives the stored tuples of 1 to 16 tuplesets, at the place of the token.
func (s *Store) Read(fresh Freshness, sets ...string) (rows [][]string, token string, err error) {
	found, err := s.one(true, fresh.add(object{"op": "read", "sets": sets}))
	return found.Sets, found.Zookie, err
}

// Why is what a check goes by: a shortest way of stored tuples from the object to the user, read at one place, or nil; and each userset that was looked into.
type Why struct {
	Path, Walked []string
	Token        string
}

// Why is refused past 4,096 usersets, as a check is.
func (s *Store) Why(tuple string, fresh Freshness) (why Why, err error) {
	first, user, err := sides(tuple)
	if err != nil {
		return
	}
	err = s.atOnePlace(fresh, func() (err error) {
		why, err = s.way(first, user, fresh)
		return
	})
	return
}

func (s *Store) way(first, user string, fresh Freshness) (Why, error) {
	// Each userset that was met, with the way to it, which is shortest as the nearest are looked into first.
	met, ways := []string{first}, map[string][]string{first: {}}
	for walked := 0; ; {
		if len(met) > usersets {
			return Why{}, Refused{full, "Full"}
		}
		some := met[walked:]
		if len(some) > setsOfRead {
			some = some[:setsOfRead]
		}
		walked += len(some)
		sets, token, err := s.Read(fresh, some...)
		if err != nil {
			return Why{}, err
		}
		fresh = Freshness{Exact: token}
		for _, rows := range sets {
			for _, row := range rows {
				left, right, err := sides(row)
				if err != nil {
					return Why{}, err
				}
				path := append(append([]string{}, ways[left]...), row)
				if right == user {
					return Why{path, met[:walked], token}, nil
				}
				if ways[right] == nil && strings.Contains(right, ":") {
					met, ways[right] = append(met, right), path
				}
			}
		}
		if walked == len(met) {
			return Why{nil, met, token}, nil
		}
	}
}

// Edit reads a list, lets `change` choose what to write, and writes that if nobody else has edited the list since; else again.
func (s *Store) Edit(list, lock string, change func(rows []string) Write) (token string, err error) {
	for {
		sets, place, err := s.Read(Freshness{}, list)
		if err != nil {
			return "", err
		}
		w := change(sets[0])
		w.Touch, w.Conditions = append(w.Touch, lock), append(w.Conditions, Since(lock, place))
		token, err = s.Write(w)
		var refused Refused
		if !errors.As(err, &refused) || refused.Number != precondition {
			return token, err
		}
	}
}

// Watch gives events, each once and in their order. After an error Next goes on where the last events ended.
type Watch struct {
	Token      string        // from which it goes on
	Pause      time.Duration // where there are no events
	store      *Store
	namespaces []string
	isAtEnd    bool
}

// Watch gives the events after the token, for ever.
func (s *Store) Watch(token string, namespaces ...string) *Watch {
	return &Watch{Token: token, Pause: time.Second, store: s, namespaces: namespaces}
}

// Next gives the next events: none where there are none for now. Once they are used, go on from Token.
func (w *Watch) Next() ([]Event, error) {
	if w.isAtEnd {
		time.Sleep(w.Pause)
	}
	found, err := w.store.one(true, object{"op": "watch", "from": w.Token, "limit": 256, "namespaces": w.namespaces})
	if err == nil {
		w.Token, w.isAtEnd = found.Heartbeat, len(found.Events) == 0
	}
	return found.Events, err
}

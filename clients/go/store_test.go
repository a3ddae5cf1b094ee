package zanstore

import (
	"fmt"
	"net"
	"os"
	"reflect"
	"testing"
	"time"
)

func must[T any](found T, err error) T {
	if err != nil {
		panic(err)
	}
	return found
}

func same(t *testing.T, found, wanted any) {
	t.Helper()
	if !reflect.DeepEqual(found, wanted) {
		t.Errorf("%v, and not %v", found, wanted)
	}
}

func TestTexts(t *testing.T) {
	same(t, must(Tuple("doc:a", "viewer", Userset("group:b", "member"))), "doc:a#viewer@group:b#member")
	same(t, Start(1), "AQAAAAAAAAAAAQAAAAAAAAAA")
	for _, wrong := range []string{"group:b#member", "ann@x", "", "a b", "a\n"} {
		if _, err := Tuple("doc:a", "viewer", User(wrong)); err == nil {
			t.Errorf("%q is taken for an id", wrong)
		}
	}
}

// Over a server of any content, which ZANSTORE_HOST and ZANSTORE_PORT name.
func TestStore(t *testing.T) {
	if os.Getenv("ZANSTORE_PORT") == "" {
		t.Skip("ZANSTORE_PORT is not set")
	}
	s := New(net.JoinHostPort(os.Getenv("ZANSTORE_HOST"), os.Getenv("ZANSTORE_PORT")))
	defer s.Close()
	id := time.Now().UnixNano()
	doc, group := fmt.Sprint("doc:", id), fmt.Sprint("group:", id)
	viewer := func(who Who) string { return must(Tuple(doc, "viewer", who)) }
	outer, inner, lock := viewer(Userset(group, "member")), must(Tuple(group, "member", User("ann"))), must(Tuple(doc, "lock", User("lock")))
	ann, bob := viewer(User("ann")), viewer(User("bob"))
	token := must(s.Write(Write{Touch: []string{outer, inner, lock}}))

	members, place, err := s.CheckMany([]string{ann, bob, ann}, Freshness{AtLeast: token})
	same(t, must(members, err), []bool{true, false, true})
	same(t, must(s.Why(ann, Freshness{})).Path, []string{outer, inner})
	same(t, must(s.Why(bob, Freshness{Exact: place})), Why{nil, []string{doc + "#viewer", group + "#member"}, place})
	_, err = s.Write(Write{Touch: []string{bob}, Conditions: []Condition{Exists(bob), Since(outer, token), Absent(lock)}})
	same(t, err, error(Refused{9, "Precondition"}))
	later := must(s.Edit(doc, lock, func(rows []string) Write { return Write{Touch: []string{bob}, Delete: []string{outer}} }))
	rows, _, err := s.Read(Freshness{AtLeast: must(Newest(token, later))}, doc+"#viewer")
	same(t, must(rows, err), [][]string{{bob}})
	watch := s.Watch(token, "doc")
	events := must(watch.Next())
	same(t, events[0], Event{must(Place(later)), "touch", bob})
	same(t, len(must(watch.Next())), 0)
}

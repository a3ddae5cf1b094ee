package zanstore

import (
	"encoding/base64"
	"encoding/binary"
	"fmt"
	"regexp"
	"strings"
)

// TextError says that what a function was given is no id, tuple or token.
type TextError string

func (e TextError) Error() string { return string(e) }

func textError(form string, given ...any) error { return TextError(fmt.Sprintf(form, given...)) }

// A namespace or relation, and the id of an object or user: printable ASCII without `#`, `@`, `:` and `+`.
var isName = regexp.MustCompile(`^[a-z0-9_]{1,64}$`).MatchString
var isID = regexp.MustCompile(`^[!"$-*,-9;-?A-~]{1,128}$`).MatchString

// Who stands in a tuple: a user by an id, or a userset. A string is neither, so no id that came from outside becomes a userset.
type Who struct{ object, relation, id string }

// User is one user, by an id.
func User(id string) Who { return Who{id: id} }

// Userset is all users that have the relation to the object.
func Userset(object, relation string) Who { return Who{object: object, relation: relation} }

// The text after the `@` of a tuple or tupleset.
func (w Who) text() (string, error) {
	if w.object != "" || w.relation != "" {
		namespace, id, _ := strings.Cut(w.object, ":")
		if !isName(namespace) || !isID(id) || !isName(w.relation) {
			return "", textError("not an object and a relation: %q, %q", w.object, w.relation)
		}
		return w.object + "#" + w.relation, nil
	}
	if !isID(w.id) {
		return "", textError("not the id of a user: %q", w.id)
	}
	return w.id, nil
}

// Tuple is the text of a tuple. An id of any other form than the valid one is an error.
func Tuple(object, relation string, w Who) (string, error) {
	left, err := Userset(object, relation).text()
	if err != nil {
		return "", err
	}
	right, err := w.text()
	if err != nil {
		return "", err
	}
	return left + "@" + right, nil
}

// The userset of a tuple's object and relation, and its user.
func sides(tuple string) (left, right string, err error) {
	left, right, _ = strings.Cut(tuple, "@")
	object, relation, _ := strings.Cut(left, "#")
	who := User(right)
	if outer, inner, isUserset := strings.Cut(right, "#"); isUserset {
		who = Userset(outer, inner)
	}
	if _, err = Tuple(object, relation, who); err != nil {
		err = textError("not a tuple: %q", tuple)
	}
	return
}

// The store and the place of a token.
func parts(token string) (store, place uint64, err error) {
	some, err := base64.StdEncoding.DecodeString(token)
	if err != nil || len(token) != 24 || len(some) != 18 || some[0] != 1 || some[1] != 0 {
		return 0, 0, textError("not a token: %q", token)
	}
	return binary.BigEndian.Uint64(some[2:]), binary.BigEndian.Uint64(some[10:]), nil
}

// Place is the place of a token: the number of a write in the log.
func Place(token string) (uint64, error) {
	_, found, err := parts(token)
	return found, err
}

// Newest is the token of the later place, of two of one store.
func Newest(one, other string) (string, error) {
	store, placeOfOne, err := parts(one)
	if err != nil {
		return "", err
	}
	storeOfOther, placeOfOther, err := parts(other)
	if err == nil && store != storeOfOther {
		err = textError("tokens of two stores: %s, %s", one, other)
	}
	if placeOfOther > placeOfOne {
		one = other
	}
	return one, err
}

// Start is the token of place 0 of a store, which is before its first write.
func Start(store uint64) string {
	some := make([]byte, 18)
	some[0] = 1
	binary.BigEndian.PutUint64(some[2:], store)
	return base64.StdEncoding.EncodeToString(some)
}

package commonware_test

import (
	"bytes"
	"encoding/binary"
	"errors"
	"fmt"
	"math"
	"os"
	"os/exec"
	"reflect"
	"regexp"
	"runtime"
	"sync"
	"testing"

	. "commonware.example/commonware/v2"
)

func TestNegativeNumbers(t *testing.T) {
	calls := map[string]func(number int) error{
		"ReadSet size":          func(n int) error { _, _, err := ReadSet(n, nil, 0, 1); return err },
		"ReadSet least":         func(n int) error { _, _, err := ReadSet(1, nil, n, 1); return err },
		"ReadSet most":          func(n int) error { _, _, err := ReadSet(1, nil, 0, n); return err },
		"DecodeSet":             func(n int) error { _, err := DecodeSet(n, nil); return err },
		"EncodeSetDedup":        func(n int) error { _, err := EncodeSetDedup(n, nil); return err },
		"ReadCommittee least":   func(n int) error { _, _, err := ReadCommittee(nil, n, 1); return err },
		"ReadCommittee most":    func(n int) error { _, _, err := ReadCommittee(nil, 0, n); return err },
		"ReadMap keys":          func(n int) error { _, _, err := ReadMap(n, 1, nil, 0, 1); return err },
		"ReadMap values":        func(n int) error { _, _, err := ReadMap(1, n, nil, 0, 1); return err },
		"ReadBiMap keys":        func(n int) error { _, _, err := ReadBiMap(n, 1, nil, 0, 1); return err },
		"ReadBiMap least":       func(n int) error { _, _, err := ReadBiMap(1, 1, nil, n, 1); return err },
		"EncodeMapDedup keys":   func(n int) error { _, err := EncodeMapDedup(n, 1, nil); return err },
		"EncodeMap":             func(n int) error { _, err := EncodeMap(1, n, nil); return err },
		"ReadCertificate bytes": func(n int) error { _, _, err := ReadCertificate(nil, n, 1); return err },
		"ReadCertificate most":  func(n int) error { _, _, err := ReadCertificate(nil, 1, n); return err },
	}
	for name, call := range calls {
		for _, number := range []int{-1, math.MinInt} {
			same(t, call(number), ErrNegative, name)
		}
	}
}

func TestSizesAtTheEdges(t *testing.T) {
	for _, size := range []int{math.MaxInt, math.MaxInt/2 + 1, math.MaxInt / 3, 1 << 62} {
		set, err := DecodeSet(size, []byte{0})
		same(t, []interface{}{set.Len(), set.Size(), err}, []interface{}{0, size, nil})
		for _, input := range [][]byte{{1}, {2, 7, 8}, {3, 7, 8, 9}, {255, 255, 255, 255, 15}} {
			_, err = DecodeSet(size, input)
			same(t, err, ErrEndOfInput)
			_, err = DecodeMap(size, size, input)
			same(t, err, ErrEndOfInput)
		}
		_, err = DecodeBiMap(1, size, []byte{1, 7, 1, 8})
		same(t, err, ErrEndOfInput)
		_, err = EncodeMap(size, size, []byte("abc"))
		same(t, err, NotWholeError{Count: 3})
	}
	set, err := DecodeSet(0, []byte{1})
	same(t, []interface{}{set.Len(), len(set.Key(0)), set.Contains(nil), set.Contains([]byte{0}), err},
		[]interface{}{1, 0, true, false, nil})
	set, err = DecodeSet(0, []byte{0})
	same(t, []interface{}{set.Contains(nil), err}, []interface{}{false, nil})
	_, err = DecodeSet(0, []byte{255, 255, 255, 255, 15})
	same(t, err, ErrNotStrict)
	_, err = EncodeSetDedup(0, nil)
	same(t, err, ErrNoSize)
	_, err = DecodeBiMap(1, 0, []byte{2, 7, 8, 2})
	same(t, err, RepeatedValueError{First: 0, Second: 1})
	_, _, err = ReadSet(20, []byte{0}, 2, 1)
	same(t, err, InvalidLengthError{Length: 0})
	quorum, err := FaultModel(math.MaxUint32).Quorum(math.MaxUint32)
	same(t, []interface{}{quorum, err}, []interface{}{uint32(math.MaxUint32), nil})
}

func TestNoInput(t *testing.T) {
	for _, input := range [][]byte{nil, {}} {
		_, err := DecodeSet(1, input)
		same(t, err, ErrEndOfInput)
		_, err = DecodeCommittee(input)
		same(t, err, ErrEndOfInput)
		_, err = DecodeBiMap(1, 1, input)
		same(t, err, ErrEndOfInput)
		_, err = DecodeCertificate(input)
		same(t, err, ErrEndOfInput)
		_, err = Check(N3F1, 4, input)
		same(t, err, ErrEndOfInput)
		_, err = Conflict(N3F1, 4, input, input)
		same(t, err, CertificateError{Which: 1, Err: ErrEndOfInput})
		encoded, err := EncodeSetDedup(1, input)
		same(t, []interface{}{encoded, err}, []interface{}{[]byte{0}, nil})
		value, err := SlotValue(input, input)
		same(t, []interface{}{value, err}, []interface{}{[]byte{0}, nil})
	}
	encoded, err := EncodeCertificate(nil, nil)
	same(t, []interface{}{encoded, err}, []interface{}{[]byte{0, 0}, nil})
	committee, err := NewCommitteeDedup(nil)
	same(t, []interface{}{committee.Len(), len(committee.Members()), err}, []interface{}{0, 0, nil})
	_, err = committee.Quorum(N3F1)
	same(t, err, ErrNoMembers)
	var none Set
	same(t, none.Contains(nil) || Committee{}.Contains(Member{}) || none.Len() > 0, false)
	_, isThere := BiMap{}.GetKey(nil)
	same(t, isThere, false)
}

// Slices have no room behind them, so that to append to one changes nothing else.
func TestSlicesOfTheInput(t *testing.T) {
	input := []byte("\x02ab\x02xymore")
	pairs, rest, err := ReadMap(1, 1, input, 0, 9)
	same(t, err, nil)
	for _, part := range [][]byte{pairs.Key(0), pairs.Value(0), pairs.Keys().Bytes()} {
		same(t, len(part), cap(part))
		_ = append(part, '!')
	}
	same(t, string(input), "\x02ab\x02xymore")
	same(t, &rest[0] == &input[6] && &pairs.Value(1)[0] == &input[5], true)
	// Whoever writes to the input changes the view, and nothing else goes wrong.
	input[1] = 'z'
	pairs.Get([]byte("b"))
	same(t, pairs.Key(0), []byte("z"))
}

// What is written, and what follows a value, has no room behind it: what is appended to it twice isn't shared.
func TestResultsHaveNoRoom(t *testing.T) {
	results := map[string][]byte{}
	written := func(name string, result []byte, err error) {
		same(t, err, nil, name)
		results[name] = result
	}
	key, signers := Member{7}, []uint32{1, 200}
	encoded, err := EncodeCommitteeDedup([]Member{key, key, key})
	written("EncodeCommitteeDedup", encoded, err)
	for name, keys := range map[string]string{"no": "", "one": "a", "two": "ab", "one of many": "aaaaaaaaaaaaaaaaaaaa"} {
		encoded, err = EncodeSetDedup(1, []byte(keys))
		written("EncodeSetDedup of "+name, encoded, err)
		encoded, err = EncodeMapDedup(1, 0, []byte(keys))
		written("EncodeMapDedup of "+name, encoded, err)
	}
	encoded, err = EncodeMap(1, 1, []byte("b1a2"))
	written("EncodeMap", encoded, err)
	encoded, err = EncodeCertificate([]byte("value"), signers)
	written("Encode", encoded, err)
	encoded, err = SlotValue([]byte("7"), []byte("A"))
	written("SlotValue", encoded, err)
	for _, more := range []string{"", "more"} {
		// The input itself has room.
		input := append(make([]byte, 0, 99), "\x01a\x01b"+more...)
		_, rest, err := ReadSet(1, input[:2+len(more)], 0, 9)
		written("ReadSet and "+more, rest, err)
		_, rest, err = ReadMap(1, 1, input, 0, 9)
		written("ReadMap and "+more, rest, err)
		_, rest, err = ReadBiMap(1, 1, input, 0, 9)
		written("ReadBiMap and "+more, rest, err)
		_, rest, err = ReadCertificate(input, 9, 9)
		written("ReadCertificate and "+more, rest, err)
		_, rest, err = ReadCommittee(append(make([]byte, 0, 99), "\x00"+more...), 0, 9)
		written("ReadCommittee and "+more, rest, err)
	}
	for name, result := range results {
		same(t, cap(result), len(result), name)
		first, second := append(result, 'x'), append(result, 'y')
		same(t, string(first[len(result):])+string(second[len(result):]), "xy", name)
	}
}

// What is written doesn't keep a room that is much longer.
func TestAShortResultKeepsNoRoom(t *testing.T) {
	keys := make([]byte, 32_000_000)
	var before, after runtime.MemStats
	runtime.GC()
	runtime.ReadMemStats(&before)
	encoded, err := EncodeSetDedup(32, keys)
	same(t, []interface{}{len(encoded), err}, []interface{}{33, nil})
	runtime.GC()
	runtime.ReadMemStats(&after)
	if more := int64(after.HeapAlloc) - int64(before.HeapAlloc); more > 1_000_000 {
		t.Errorf("%d bytes are kept", more)
	}
	runtime.KeepAlive(keys)
	runtime.KeepAlive(encoded)
}

// No caller can replace a part of a view, such as the pairs of which a bimap has the order.
func TestViewsAreWhole(t *testing.T) {
	for _, view := range []interface{}{Set{}, Committee{}, Map{}, BiMap{}} {
		kind := reflect.TypeOf(view)
		for i := 0; i < kind.NumField(); i++ {
			same(t, kind.Field(i).IsExported(), false, kind, " ", kind.Field(i).Name)
		}
	}
	// A bimap has each call of a map.
	input := []byte("\x02ab\x02yx")
	bimap, err := DecodeBiMap(1, 1, input)
	same(t, err, nil)
	pairs, err := DecodeMap(1, 1, input)
	same(t, err, nil)
	same(t, bimap.AsMap(), pairs)
	of, ofMap := reflect.ValueOf(bimap), reflect.ValueOf(pairs)
	arguments := map[string][]reflect.Value{
		"Get": {reflect.ValueOf([]byte("b"))}, "Key": {reflect.ValueOf(1)}, "Value": {reflect.ValueOf(1)},
	}
	for i := 0; i < ofMap.NumMethod(); i++ {
		name := ofMap.Type().Method(i).Name
		found, wanted := of.MethodByName(name).Call(arguments[name]), ofMap.Method(i).Call(arguments[name])
		for at := range wanted {
			same(t, found[at].Interface(), wanted[at].Interface(), name)
		}
	}
	key, isThere := bimap.GetKey([]byte("x"))
	same(t, []interface{}{string(key), isThere}, []interface{}{"b", true})
}

func TestNamesOfFaultModels(t *testing.T) {
	for model, name := range map[FaultModel]string{N3F1: "N3f1", N5F1: "N5f1", 7: "n >= 7f + 1", math.MaxUint32: "n >= 4294967295f + 1"} {
		same(t, fmt.Sprint(model), name)
	}
	same(t, fmt.Sprintf("%d", N3F1), "3")
}

func TestIndicesPastTheLast(t *testing.T) {
	set, _ := DecodeSet(1, []byte("\x02ab"))
	committee, _ := NewCommitteeDedup([]Member{{}})
	empty, _ := DecodeSet(0, []byte{1})
	pairs, _ := DecodeMap(1, 0, []byte{2, 7, 8, 2})
	for _, index := range []int{-1, 2, math.MaxInt} {
		for _, call := range []func(){
			func() { set.Key(index) }, func() { committee.Member(index) }, func() { empty.Key(index) },
			func() { pairs.Value(index) }, func() { pairs.Key(index) },
		} {
			func() {
				defer func() {
					_, isRuntime := recover().(runtime.Error)
					same(t, isRuntime, true)
				}()
				call()
			}()
		}
	}
}

func TestErrorsAreFound(t *testing.T) {
	_, err := EncodeCertificate(nil, []uint32{3, 3})
	same(t, []interface{}{errors.Is(err, ErrNotStrict), err}, []interface{}{true, NotStrictError{Index: 1}})
	input := []byte{1, 0xaa, 3, 0, 1, 2}
	_, err = Conflict(N3F1, 4, input, append(input[:6:6], 0))
	same(t, errors.Is(err, LeftOverError{Count: 1}), true)
	same(t, err.Error(), "certificate 2: commonware: 1 bytes left over")
	_, err = Conflict(N3F1, 4, input, input)
	same(t, err, ErrSameValue)
	_, err = Conflict(1, 0, nil, nil)
	same(t, err, ErrNoModel)
}

func numbered(count int) []byte {
	keys := make([]byte, 4*count)
	for i := 0; i < count; i++ {
		binary.BigEndian.PutUint32(keys[4*i:], uint32(i))
	}
	return keys
}

func TestManyItems(t *testing.T) {
	const count = 70_000
	keys := numbered(count)
	encoded, err := EncodeSetDedup(4, keys)
	same(t, err, nil)
	same(t, bytes.Equal(encoded[3:], keys), true)
	set, err := DecodeSet(4, encoded)
	same(t, []interface{}{set.Len(), err}, []interface{}{count, nil})
	bimap, err := DecodeBiMap(4, 4, append(append([]byte{}, encoded...), encoded...))
	same(t, err, nil)
	signers := make([]uint32, count)
	for i := range signers {
		at, isThere := set.Position(keys[4*i : 4*i+4])
		same(t, isThere && at == i, true)
		key, isThere := bimap.GetKey(keys[4*i : 4*i+4])
		same(t, isThere && bytes.Equal(key, keys[4*i:4*i+4]), true)
		signers[i] = uint32(5 * i)
	}
	value := bytes.Repeat([]byte{7}, 1_000_000)
	input, err := EncodeCertificate(value, signers)
	same(t, err, nil)
	certificate, err := DecodeCertificate(input)
	same(t, err, nil)
	same(t, bytes.Equal(certificate.Value, value), true)
	same(t, certificate.Signers, signers)
}

func TestManyGoroutines(t *testing.T) {
	encoded, _ := EncodeSetDedup(4, numbered(1000))
	input := append(append([]byte{}, encoded...), encoded...)
	var group sync.WaitGroup
	for worker := 0; worker < 8; worker++ {
		group.Add(1)
		go func() {
			defer group.Done()
			for i := 0; i < 200; i++ {
				bimap, err := DecodeBiMap(4, 4, input)
				key, isThere := bimap.GetKey(bimap.Value(i))
				written, _ := EncodeSetDedup(4, bimap.Keys().Bytes())
				if err != nil || !isThere || !bytes.Equal(key, bimap.Key(i)) || !bytes.Equal(written, encoded) {
					t.Errorf("%v %v", err, isThere)
				}
				if i%20 == 0 {
					runtime.GC()
				}
			}
		}()
	}
	group.Wait()
}

// The memory that the library takes for what it writes is given back.
func TestNoMemoryIsLost(t *testing.T) {
	pages := func() int {
		text, err := os.ReadFile("/proc/self/statm")
		if err != nil {
			t.Skip(err)
		}
		return numberOf(string(bytes.Fields(text)[1])) * os.Getpagesize()
	}
	write := func() {
		for i := 0; i < 50; i++ {
			if _, err := EncodeMap(4, 4, numbered(4000)); err != nil {
				t.Fatal(err)
			}
		}
		runtime.GC()
	}
	write()
	before := pages()
	for i := 0; i < 20; i++ {
		write()
	}
	// Each call takes more than 16,000 bytes, and there were 1,000.
	if after := pages(); after-before > 8_000_000 {
		t.Errorf("%d bytes more than %d", after-before, before)
	}
}

func block(t *testing.T, page, language string, number int) string {
	found := regexp.MustCompile("(?s)```"+language+"\n(.*?)```").FindAllStringSubmatch(page, -1)
	if len(found) <= number {
		t.Fatalf("the page has no program %d in %s", number, language)
	}
	return found[number][1]
}

func TestTheProgramsOfThePage(t *testing.T) {
	page, err := os.ReadFile("../README.md")
	same(t, err, nil)
	for number, name := range []string{"committee", "stakes"} {
		program, err := os.ReadFile("examples/" + name + "/main.go")
		same(t, err, nil)
		same(t, string(program), block(t, string(page), "go", number))
		prints, err := exec.Command("go", "run", "./examples/"+name).CombinedOutput()
		same(t, err, nil, string(prints))
		same(t, string(prints), block(t, string(page), "text", number))
	}
}

package commonware

import (
	"encoding/hex"
	"os/exec"
	"reflect"
	"strconv"
	"strings"
	"testing"
)

// The vectors of native calls (vectors/native), as Python writes them out as lines: each call is compared in every field of
// its view, in what it writes, and in what it leaves of its room.

// A field is what a call returns, by its name.
type field struct {
	name   string
	number uint64
}

// given are the arguments of a test by their names, its room, and what is expected.
type given struct {
	id          string
	words       map[string][]string
	room        int
	roomBytes   []byte
	roomIndices []uint32
	fields      []field
	written     []string
}

func numberOf(word string, bits int) uint64 {
	number, err := strconv.ParseUint(word, 10, bits)
	if err != nil {
		panic(err)
	}
	return number
}

func (g *given) number(name string) uint64 {
	return numberOf(g.words[name][0], 64)
}

func bytesOf(words []string) []byte {
	bytes, err := hex.DecodeString(strings.TrimSuffix(words[0], "-"))
	if err != nil {
		panic(err)
	}
	return bytes
}

func indicesOf(words []string) []uint32 {
	indices := make([]uint32, len(words))
	for i, word := range words {
		indices[i] = uint32(numberOf(word, 32))
	}
	return indices
}

func (g *given) bytes(name string) []byte {
	return bytesOf(g.words[name])
}

func (g *given) indices(name string) []uint32 {
	return indicesOf(g.words[name])
}

func (g *given) weights(name string) []uint64 {
	var weights []uint64
	for _, word := range g.words[name] {
		weights = append(weights, numberOf(word, 64))
	}
	return weights
}

// fill makes the rooms what they are before a call.
func (g *given) fill() {
	g.roomBytes, g.roomIndices = make([]byte, g.room), make([]uint32, g.room)
	for i := range g.roomBytes {
		g.roomBytes[i], g.roomIndices[i] = 0xee, 0xeeeeeeee
	}
}

// isRoom tells whether the room begins with what is expected and is as it was after that.
func (g *given) isRoom() bool {
	wanted := given{room: g.room}
	wanted.fill()
	if len(g.written) > 0 && g.written[0] == "written-bytes" {
		copy(wanted.roomBytes, bytesOf(g.written[1:]))
	} else if len(g.written) > 1 {
		copy(wanted.roomIndices, indicesOf(g.written[1:]))
	}
	return reflect.DeepEqual(g.roomBytes, wanted.roomBytes) && reflect.DeepEqual(g.roomIndices, wanted.roomIndices)
}

// take takes a line of a test, and tells whether it is the last one.
func (g *given) take(words []string) bool {
	switch words[0] {
	case "test":
		*g = given{id: words[1], words: map[string][]string{}}
	case "room":
		g.room = int(numberOf(words[1], 64))
	case "field":
		g.fields = append(g.fields, field{words[1], numberOf(words[2], 64)})
	case "bytes", "numbers", "number":
		g.words[words[1]] = words[2:]
	case "end":
		return true
	default:
		g.written = words
	}
	return false
}

func TestVectorsOfNativeCalls(t *testing.T) {
	for name, call := range calls {
		t.Run(name, func(t *testing.T) {
			lines, err := exec.Command("python3", "-B", "../../vectors/reference/native_lines.py", name).Output()
			if err != nil {
				t.Fatal(err)
			}
			var g given
			tried := 0
			for _, line := range strings.Split(strings.TrimSuffix(string(lines), "\n"), "\n") {
				if !g.take(strings.Fields(line)) {
					continue
				}
				tried++
				g.fill()
				if returned := call(&g); !reflect.DeepEqual(returned, g.fields) || !g.isRoom() {
					t.Errorf("%s: %v, and not %v", g.id, returned, g.fields)
				}
			}
			if tried == 0 {
				t.Error("no vector is tried")
			}
		})
	}
}

package commonware_test

import (
	"encoding/binary"
	"encoding/hex"
	"encoding/json"
	"errors"
	"math"
	"os"
	"path/filepath"
	"strconv"
	"strings"
	"testing"

	. "commonware.example/commonware/v2"
)

// The vectors at the repository's root that are about what the library has: their answers were worked out by hand.

// errSkipped is returned for a question that the library has no call for.
var errSkipped = errors.New("skipped")

// sizes are how many bytes an item of each type of a fixed length has.
var sizes = map[string]int{"u8": 1, "u32": 4, "u64": 8, "member": 32, "bytes20": 20, "bytes33": 33, "bytes48": 48, "bytes96": 96}

// hexBytes are bytes that JSON has in hexadecimal.
type hexBytes []byte

func (b *hexBytes) UnmarshalText(text []byte) (err error) {
	*b, err = hex.DecodeString(string(text))
	return err
}

func (b hexBytes) MarshalText() ([]byte, error) {
	return []byte(hex.EncodeToString(b)), nil
}

// A question of the vectors: those of its parts that it has.
type question struct {
	Ask, Type, Model                                              string
	Ranges                                                        []string
	Members                                                       uint32
	Bytes, Listed, Set, Item, Weights, Certificate, First, Second hexBytes
}

// sizesOf returns how many bytes the items of the type have, or its keys and its values; 0 stands for any number.
func (q question) sizesOf() []int {
	_, items, _ := strings.Cut(strings.TrimSuffix(q.Type, ">"), "<")
	var found []int
	for _, item := range strings.Split(items, ",") {
		found = append(found, sizes[item])
	}
	return found
}

// An answer of the vectors, by its parts.
type answer map[string]any

// numberOf returns a number of up to 64 bits, or the greatest int where it is past that.
func numberOf(word string) int {
	number, err := strconv.ParseUint(word, 10, 64)
	if err != nil {
		panic(err)
	}
	if number > math.MaxInt {
		return math.MaxInt
	}
	return int(number)
}

// limitsOf returns the least and the greatest number of a range.
func limitsOf(word string) (least, most int) {
	start, end, _ := strings.Cut(word, "..")
	least, most = 0, NoLimit
	if start != "" {
		least = numberOf(start)
	}
	if strings.HasPrefix(end, "=") {
		most = numberOf(end[1:])
	} else if end != "" {
		most = numberOf(end) - 1
	}
	if most < 0 {
		return 1, 0
	}
	return least, most
}

func modelOf(word string) FaultModel {
	switch word {
	case "n3f1":
		return N3F1
	case "n5f1":
		return N5F1
	}
	return FaultModel(numberOf(strings.TrimPrefix(word, "k=")))
}

// invalid returns the answer for items that break the rule of a collection.
func invalid(collection, rule string) answer {
	return answer{"error": "Invalid", "collection": collection, "rule": rule}
}

// answerOf returns the answer of the vectors to an error.
func answerOf(err error, sameValue string) answer {
	var length InvalidLengthError
	var left LeftOverError
	var key RepeatedKeyError
	var value RepeatedValueError
	var zero ZeroWeightError
	var overflow WeightOverflowError
	switch {
	case errors.As(err, &length):
		return answer{"error": "InvalidLength", "length": length.Length}
	case errors.As(err, &left):
		return answer{"error": "LeftOver", "left": left.Count}
	case errors.As(err, &key):
		return answer{"error": "DuplicateKey"}
	case errors.As(err, &value):
		return invalid("BiMap", "duplicate value detected during deserialization")
	case errors.As(err, &zero):
		return answer{"error": "ZeroWeight", "participant": zero.Index}
	case errors.As(err, &overflow):
		return answer{"error": "WeightOverflow", "participant": overflow.Index}
	case errors.Is(err, ErrNotStrict):
		return invalid("Set", "items must be sorted and unique")
	}
	for known, name := range map[error]string{
		ErrEndOfInput: "EndOfBuffer", ErrInvalidVarint: "InvalidVarint", ErrOutside: "Outside", ErrTooFew: "TooFew",
		ErrSameValue: sameValue, ErrNoSlot: "NoSlot", ErrOtherSlot: "OtherSlot", ErrNoMembers: "NoWeights",
		ErrTooLight: "TooLight",
	} {
		if errors.Is(err, known) {
			return answer{"error": name}
		}
	}
	return answer{"error": err.Error()}
}

// A test of the vectors. Its question has no ask where it can't be read.
type test struct {
	ID       int `json:"tcId"`
	Question question
	Answer   json.RawMessage
}

func testsOf(t *testing.T, name string) []test {
	text, err := os.ReadFile(filepath.Join("..", "..", "vectors", name+".json"))
	if err != nil {
		t.Fatal(err)
	}
	var file struct{ Tests []test }
	if err := json.Unmarshal(text, &file); err != nil {
		t.Fatal(err)
	}
	return file.Tests
}

// isSame tells whether an answer is the one that JSON has, whatever the order of its parts.
func isSame(got answer, expected json.RawMessage) bool {
	var other any
	if err := json.Unmarshal(expected, &other); err != nil {
		panic(err)
	}
	ours, err := json.Marshal(got)
	if err != nil {
		panic(err)
	}
	theirs, err := json.Marshal(other)
	return err == nil && string(ours) == string(theirs)
}

// areAnswered compares the answer to each question of a file that can be read.
func areAnswered(t *testing.T, name string, least int, ask func(asked question) (answer, error)) {
	t.Run(name, func(t *testing.T) {
		tried := 0
		for _, it := range testsOf(t, name) {
			if it.Question.Ask == "" {
				continue
			}
			got, err := ask(it.Question)
			if err == errSkipped {
				continue
			}
			if err != nil {
				got = answerOf(err, map[bool]string{true: "SameDecision", false: "EqualValues"}[strings.HasSuffix(name, "equivocation")])
			}
			if !isSame(got, it.Answer) {
				t.Errorf("%v, and not %s: test %d", got, it.Answer, it.ID)
			}
			tried++
		}
		if tried < least {
			t.Errorf("%d were tried", tried)
		}
	})
}

func accepted(count int, rest []byte, err error) (answer, error) {
	return answer{"items": count, "left": len(rest)}, err
}

func TestVectorsOfSets(t *testing.T) {
	for _, item := range []string{"u8", "u32", "member", "bytes20", "bytes33", "bytes48", "bytes96"} {
		areAnswered(t, "set_"+item, 60, func(asked question) (answer, error) {
			least, most := limitsOf(asked.Ranges[0])
			set, rest, err := ReadSet(asked.sizesOf()[0], asked.Bytes, least, most)
			return accepted(set.Len(), rest, err)
		})
	}
	areAnswered(t, "position", 40, func(asked question) (answer, error) {
		size := asked.sizesOf()[0]
		if size == 0 || size != len(asked.Item) {
			return nil, errSkipped
		}
		set, err := DecodeSet(size, asked.Set)
		index, isThere := set.Position(asked.Item)
		if !isThere {
			return answer{"position": nil}, err
		}
		return answer{"position": index}, err
	})
}

func TestVectorsOfMaps(t *testing.T) {
	for _, name := range []string{"map_u8_u8", "map_member_u8", "map_member_u64"} {
		areAnswered(t, name, 60, func(asked question) (answer, error) {
			sizes := asked.sizesOf()
			least, most := limitsOf(asked.Ranges[0])
			pairs, rest, err := ReadMap(sizes[0], sizes[1], asked.Bytes, least, most)
			return accepted(pairs.Len(), rest, err)
		})
	}
	for _, name := range []string{"bimap_u8_u8", "bimap_member_member"} {
		areAnswered(t, name, 60, func(asked question) (answer, error) {
			sizes := asked.sizesOf()
			least, most := limitsOf(asked.Ranges[0])
			pairs, rest, err := ReadBiMap(sizes[0], sizes[1], asked.Bytes, least, most)
			return accepted(pairs.Len(), rest, err)
		})
	}
}

// built returns what is built of a list of keys and of one of as many values, of one size each.
func built(asked question, encode func(keySize, valueSize int, pairs []byte) ([]byte, error)) (answer, error) {
	sizes := asked.sizesOf()
	count, rest, err := plainVarint(asked.Listed)
	if !strings.HasPrefix(asked.Type, "map") || sizes[1] == 0 || err != nil {
		return nil, errSkipped
	}
	keys, rest, err := plainItems(sizes[0], count, rest)
	if err != nil {
		return nil, errSkipped
	}
	again, rest, err := plainVarint(rest)
	if err != nil || again != count || len(rest) != count*sizes[1] {
		return nil, errSkipped
	}
	var pairs []byte
	for index, key := range keys {
		pairs = append(append(pairs, key...), rest[index*sizes[1]:][:sizes[1]]...)
	}
	written, err := encode(sizes[0], sizes[1], pairs)
	return answer{"built": hexBytes(written)}, err
}

func TestVectorsOfBuilders(t *testing.T) {
	areAnswered(t, "build", 50, func(asked question) (answer, error) {
		size := asked.sizesOf()[0]
		count, rest, err := plainVarint(asked.Listed)
		if err == nil && size > 0 && strings.HasPrefix(asked.Type, "set") && len(rest) == size*count {
			written, err := EncodeSetDedup(size, rest)
			return answer{"built": hexBytes(written)}, err
		}
		return built(asked, EncodeMapDedup)
	})
	areAnswered(t, "build_unique", 10, func(asked question) (answer, error) {
		return built(asked, EncodeMap)
	})
}

func TestVectorsOfCertificates(t *testing.T) {
	areAnswered(t, "certificate", 20, func(asked question) (answer, error) {
		leastBytes, mostBytes := limitsOf(asked.Ranges[0])
		leastSigners, mostSigners := limitsOf(asked.Ranges[1])
		if leastBytes > 0 || leastSigners > 0 {
			// The call takes no lower bounds.
			return nil, errSkipped
		}
		certificate, rest, err := ReadCertificate(asked.Bytes, mostBytes, mostSigners)
		return accepted(len(certificate.Signers), rest, err)
	})
	areAnswered(t, "quorum", 30, func(asked question) (answer, error) {
		checked, err := Check(modelOf(asked.Model), asked.Members, asked.Certificate)
		said := answer{"signers": checked.Signers, "slot": nil, "decision": nil}
		if checked.HasSlot {
			said["slot"], said["decision"] = hexBytes(checked.Slot), hexBytes(checked.Decision)
		}
		return said, err
	})
	for name, call := range map[string]func(FaultModel, uint32, []byte, []byte) ([]uint32, error){
		"conflict": Conflict, "equivocation": Equivocation,
	} {
		areAnswered(t, name, 20, func(asked question) (answer, error) {
			both, err := call(modelOf(asked.Model), asked.Members, asked.First, asked.Second)
			return answer{"both": hexBytes(certificateBytes(nil, both)[1:])}, err
		})
	}
}

func TestVectorsOfFaults(t *testing.T) {
	areAnswered(t, "faults", 20, func(asked question) (answer, error) {
		model := modelOf(asked.Model)
		faults, err := model.MaxFaults(asked.Members)
		if err != nil {
			return nil, err
		}
		quorum, _ := model.Quorum(asked.Members)
		smaller, _ := model.SmallerQuorum(asked.Members)
		return answer{"faults": faults, "quorum": quorum, "mQuorum": smaller}, nil
	})
}

// weightsOf returns the weights that the bytes of a question list, or errSkipped where they list none.
func (q question) weightsOf() ([]uint64, error) {
	count, rest, err := plainVarint(q.Weights)
	if err != nil || len(rest) != 8*count {
		return nil, errSkipped
	}
	weights := make([]uint64, count)
	for index := range weights {
		weights[index] = binary.BigEndian.Uint64(rest[8*index:])
	}
	return weights, nil
}

func TestVectorsOfWeights(t *testing.T) {
	text := func(weight uint64) string { return strconv.FormatUint(weight, 10) }
	areAnswered(t, "weights", 80, func(asked question) (answer, error) {
		weights, err := asked.weightsOf()
		if err != nil {
			return nil, err
		}
		numbers, err := modelOf(asked.Model).WeightsQuorum(weights)
		return answer{
			"totalWeight": text(numbers.Total), "toleratedWeight": text(numbers.MaxFaultyWeight),
			"quorumWeight": text(numbers.QuorumWeight), "mQuorumWeight": text(numbers.SmallerQuorumWeight),
		}, err
	})
	areAnswered(t, "weighted_quorum", 80, func(asked question) (answer, error) {
		weights, err := asked.weightsOf()
		if err != nil {
			return nil, err
		}
		checked, err := WeightedCheck(modelOf(asked.Model), weights, asked.Certificate)
		said := answer{"signers": checked.Signers, "weight": text(checked.Weight), "slot": nil, "decision": nil}
		if checked.HasSlot {
			said["slot"], said["decision"] = hexBytes(checked.Slot), hexBytes(checked.Decision)
		}
		return said, err
	})
	for name, call := range map[string]func(FaultModel, []uint64, []byte, []byte) (Named, error){
		"weighted_conflict": WeightedConflict, "weighted_equivocation": WeightedEquivocation,
	} {
		areAnswered(t, name, 60, func(asked question) (answer, error) {
			weights, err := asked.weightsOf()
			if err != nil {
				return nil, err
			}
			both, err := call(modelOf(asked.Model), weights, asked.First, asked.Second)
			return answer{"both": hexBytes(certificateBytes(nil, both.Members)[1:]), "weight": text(both.Weight)}, err
		})
	}
}

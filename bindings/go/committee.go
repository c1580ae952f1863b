//go:build cgo

package commonware

// MemberSize is how many bytes a member has.
const MemberSize = 32

// A Member is the key of a member. Members are ordered by their bytes.
type Member = [MemberSize]byte

// A Committee is its members, strictly increasing, where their encoding has them. The zero value is a committee
// without members.
type Committee struct {
	members items
}

// NewCommitteeDedup returns the committee of these keys, which may come in any order and repeat. The errors are those
// of [EncodeCommitteeDedup].
func NewCommitteeDedup(keys []Member) (Committee, error) {
	bytes, err := EncodeCommitteeDedup(keys)
	if err != nil {
		return Committee{}, err
	}
	return DecodeCommittee(bytes)
}

// ReadCommittee decodes the committee of least to most members at the start of the input, and returns it with what
// follows. Else the error is the first fault (decoding error): [ErrEndOfInput], [ErrInvalidVarint],
// [InvalidLengthError] or [ErrNotStrict]; or [ErrNegative].
func ReadCommittee(input []byte, least, most int) (Committee, []byte, error) {
	if areNegative(least, most) {
		return Committee{}, nil, ErrNegative
	}
	view := callCommitteeRead(input, least, most)
	if err := errorOf(view.status, view.number); err != nil {
		return Committee{}, nil, err
	}
	return Committee{itemsAt(MemberSize, int(view.count), input, view.start)}, rest(input, view.left), nil
}

// DecodeCommittee decodes the committee that the whole input is, of any number of members. The errors are those of
// [ReadCommittee], and [LeftOverError].
func DecodeCommittee(input []byte) (Committee, error) {
	committee, rest, err := ReadCommittee(input, 0, NoLimit)
	if err := whole(rest, err); err != nil {
		return Committee{}, err
	}
	return committee, nil
}

// EncodeCommitteeDedup encodes the committee of these keys: sorted, each key once. The keys may come in any order and
// repeat. The errors are [InvalidLengthError] where the keys are more than 4294967295, and [ErrOutOfMemory].
func EncodeCommitteeDedup(keys []Member) ([]byte, error) {
	room := make([]byte, 5+MemberSize*len(keys))
	return written(callCommitteeEncodeDedup(flat(keys), room), room)
}

// Len returns how many members there are.
func (c Committee) Len() int {
	return c.members.count
}

// Member returns a copy of the member at an index. It panics where there is none, as a slice does.
func (c Committee) Member(index int) Member {
	return *(*Member)(c.members.at(index))
}

// Members returns copies of all members in order.
func (c Committee) Members() []Member {
	all := make([]Member, c.Len())
	copy(flat(all), c.members.bytes)
	return all
}

// Position returns the index of a member and true, or false where there is no such, in O(log n) comparisons.
func (c Committee) Position(key Member) (int, bool) {
	place := callCommitteePosition(c.members.bytes, key[:])
	if place.status != statusOK {
		return 0, false
	}
	return place.index, true
}

// Contains tells whether a key is that of a member.
func (c Committee) Contains(key Member) bool {
	_, isThere := c.Position(key)
	return isThere
}

// MaxFaults returns how many of the members may be faulty in a model, or [ErrNoModel], or [ErrNoMembers].
func (c Committee) MaxFaults(model FaultModel) (uint32, error) {
	return model.MaxFaults(uint32(c.Len()))
}

// Quorum returns how many of the members make a quorum in a model, or [ErrNoModel], or [ErrNoMembers].
func (c Committee) Quorum(model FaultModel) (uint32, error) {
	return model.Quorum(uint32(c.Len()))
}

// SmallerQuorum returns the least size whose subsets share f + 1 members with each quorum in a model, or [ErrNoModel],
// or [ErrNoMembers].
func (c Committee) SmallerQuorum(model FaultModel) (uint32, error) {
	return model.SmallerQuorum(uint32(c.Len()))
}

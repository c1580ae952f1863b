//go:build cgo

package commonware

import "fmt"

// A FaultModel is the k of a resilience n >= kf + 1: of n participants f may be faulty, where f is the greatest number
// that fits. It is the greatest for which any two quorums, of n - f each, share (k - 2)f + 1 participants. A k is 2 or
// more; each call with another returns [ErrNoModel].
type FaultModel uint32

const (
	// N3F1 is n >= 3f + 1: any two quorums share f + 1 participants, so one that is outside any given f.
	N3F1 FaultModel = 3
	// N5F1 is n >= 5f + 1: any two quorums share 3f + 1 participants.
	N5F1 FaultModel = 5
)

// String returns the name of a model that has one, "N3f1" or "N5f1", and else its resilience, as "n >= 7f + 1".
func (k FaultModel) String() string {
	switch k {
	case N3F1:
		return "N3f1"
	case N5F1:
		return "N5f1"
	}
	return fmt.Sprintf("n >= %df + 1", uint32(k))
}

// tell returns what a call tells of n participants, where there is a model and a participant.
func (k FaultModel) tell(n uint32, call func(k, n uint32) uint32) (uint32, error) {
	if k < 2 {
		return 0, ErrNoModel
	}
	if n == 0 {
		return 0, ErrNoMembers
	}
	return call(uint32(k), n), nil
}

// MaxFaults returns how many of n participants may be faulty, or [ErrNoModel], or [ErrNoMembers] where n is 0.
func (k FaultModel) MaxFaults(n uint32) (uint32, error) {
	return k.tell(n, callMaxFaults)
}

// Quorum returns how many of n participants make a quorum, n - f, or [ErrNoModel], or [ErrNoMembers] where n is 0.
func (k FaultModel) Quorum(n uint32) (uint32, error) {
	return k.tell(n, callQuorum)
}

// SmallerQuorum returns the least size whose subsets share f + 1 participants with each quorum, 2f + 1, or
// [ErrNoModel], or [ErrNoMembers] where n is 0.
func (k FaultModel) SmallerQuorum(n uint32) (uint32, error) {
	return k.tell(n, callSmallerQuorum)
}

//go:build cgo

package commonware

// WeightNumbers are what weights come to in a fault model.
type WeightNumbers struct {
	// Total is what all members weigh together.
	Total uint64
	// MaxFaultyWeight is what faulty members may weigh together: f, the greatest number with kf + 1 at most the total.
	MaxFaultyWeight uint64
	// QuorumWeight is what the members of a quorum weigh together at least: all but f.
	QuorumWeight uint64
	// SmallerQuorumWeight is the least weight whose subsets share members that weigh at least f + 1 with each quorum,
	// for all weights of this total: 2f + 1.
	SmallerQuorumWeight uint64
}

// WeightsQuorum returns what the weights of a committee's members come to in a model, as their stake or voting power:
// the weight at an index is that of the member there. There are 1 to 4294967295 of them, each is positive, and their
// sum fits 64 bits. The f of it is the greatest number that is safe for all weights of their total: for which any two
// subsets that weigh all but f share members that weigh at least (k - 2)f + 1.
//
// An index is that of [Committee.Position]: the place in the order of the keys, not that in which they were given.
// Weights in another order would accuse the wrong members, and no call can tell.
//
// Else the error is the first of these: [ErrNoModel], [ErrNoMembers] where there are no weights, [InvalidLengthError]
// where they are more than 4294967295, and [ZeroWeightError] or [WeightOverflowError], whose index comes first.
func (k FaultModel) WeightsQuorum(weights []uint64) (WeightNumbers, error) {
	view := callWeightsQuorum(uint32(k), weights)
	if err := errorOf(view.status, view.number); err != nil {
		return WeightNumbers{}, err
	}
	return WeightNumbers{
		Total: view.total, MaxFaultyWeight: view.tolerated,
		QuorumWeight: view.quorum, SmallerQuorumWeight: view.smallerQuorum,
	}, nil
}

// A WeightedChecked certificate is one whose signers are members of a committee and weigh at least a quorum.
type WeightedChecked struct {
	Checked
	// Weight is what those that signed weigh together.
	Weight uint64
}

// WeightedCheck reads the input as exactly one certificate and returns what it says, where its signers are members with
// these weights, and weigh at least a quorum of the model.
//
// Warning: no signature is looked at. Whoever doesn't verify them knows nothing of who signed.
//
// Else the error is the first of these: one of [FaultModel.WeightsQuorum], a fault of the input ([ErrEndOfInput],
// [ErrInvalidVarint], [ErrNotStrict], [LeftOverError]), [ErrOutside], [ErrTooLight].
func WeightedCheck(model FaultModel, weights []uint64, input []byte) (WeightedChecked, error) {
	view := callWeightedCheck(uint32(model), weights, input)
	checked, err := checkedOf(view.checkView(), input)
	return WeightedChecked{checked, view.weight}, err
}

// checkView returns the fields that the view of a check has too.
func (view weightedCheckView) checkView() checkView {
	return checkView{
		status: view.status, signers: view.signers, number: view.number,
		valueStart: view.valueStart, valueLength: view.valueLength,
		slotStart: view.slotStart, slotLength: view.slotLength,
		decisionStart: view.decisionStart, decisionLength: view.decisionLength,
	}
}

// Named are the members that a call names.
type Named struct {
	// Members are their indices, in order.
	Members []uint32
	// Weight is what they weigh together.
	Weight uint64
}

// WeightedConflict returns the members that signed both of two certificates for different values, where quorums are by
// these weights, and what they weigh. With f the MaxFaultyWeight of the weights they weigh at least (k - 2)f + 1; where
// the model's k is 3 or more, at least one of them is outside every subset that weighs at most f. Each input is exactly
// one certificate.
//
// To sign two values is a fault only where both are for one slot (chain, committee, height, round and kind of vote,
// say), which [WeightedEquivocation] asks: honest members sign many values, at most one a slot.
//
// Warning: no signature is looked at. Whoever doesn't verify them first may accuse an innocent member.
//
// Else the error is the first of these: one of [FaultModel.WeightsQuorum], a fault of the first input ([ErrEndOfInput],
// [ErrInvalidVarint], [ErrNotStrict], [LeftOverError]), one of the second, [ErrSameValue], [ErrOutside] of the first,
// of the second, [ErrTooLight] of the first, of the second. One that is about the first or the second is in a
// [CertificateError].
func WeightedConflict(model FaultModel, weights []uint64, first, second []byte) (Named, error) {
	return namedByWeight(callWeightedConflict, model, weights, first, second)
}

// WeightedEquivocation returns the members that equivocated, and what they weigh: those that signed both of two
// certificates for different decisions for one slot. All is as [WeightedConflict] has it, and no honest member is named
// where honest members sign at most one decision a slot.
//
// Warning: no signature is looked at. Whoever doesn't verify them first may accuse an innocent member.
//
// Else the error is the first of these: one of [FaultModel.WeightsQuorum], a fault of the first input, one of the
// second, [ErrNoSlot] of the first value, of the second, [ErrOtherSlot], [ErrSameValue] for one decision, [ErrOutside]
// of the first, of the second, [ErrTooLight] of the first, of the second. One that is about the first or the second is
// in a [CertificateError].
func WeightedEquivocation(model FaultModel, weights []uint64, first, second []byte) (Named, error) {
	return namedByWeight(callWeightedEquivocation, model, weights, first, second)
}

type weighedNamer func(k uint32, weights []uint64, first, second []byte, room []uint32) weightedConflictView

// namedByWeight returns the members that a call names, and what they weigh.
func namedByWeight(call weighedNamer, model FaultModel, weights []uint64, first, second []byte) (Named, error) {
	// The first call tells how many indices it takes.
	var members []uint32
	view := call(uint32(model), weights, first, second, nil)
	if view.status == statusRoom {
		members = make([]uint32, view.count)
		view = call(uint32(model), weights, first, second, members)
	}
	return Named{members, view.weight}, errorAbout(view.status, view.which, view.number)
}

"""The change of a view (OSDI 1999 section 4.4): what VIEW-CHANGEs say and prove, what is chosen from them, and which NEW-VIEWs are right."""
from itertools import islice

from messages import CHECKPOINT, NULL, PRE_PREPARE, PREPARE, Certificate, NewView, PrePrepare, ViewChange
from order import BAD_AUTHENTICATOR, LOG_SIZE, refuse_if

TOO_FEW, BAD_CERTIFICATE, WRONG_CHOICE = 30, 31, 32


def change_of(order, view):
    """What a replica says of its log: its stable number, and of each number above it that is prepared the certificate of the highest view."""
    checkpoints = tuple(order.votes(CHECKPOINT, 0, order.low).values()) if order.low else ()
    certificates = []
    for number in range(order.low + 1, order.low + LOG_SIZE + 1):
        views = sorted((each for tag, each, of in order.log if (tag, of) == (PRE_PREPARE, number)), reverse=True)
        proposals = filter(None, (order.prepared(each, number) for each in views))
        for latest in islice(proposals, 1):
            certificates.append(Certificate(latest, tuple(order.backing(latest))))
    return order.keys.sign(ViewChange(order.me, view, order.low, checkpoints, tuple(certificates)))


def certifies(order, certificate):
    """Whether a batch was prepared, as its certificate shows: all is signed for this replica, the batch's requests too."""
    proposal = certificate.proposal.message
    votes = [each.message for each in certificate.prepares]
    senders = {vote.sender for vote in votes}
    wanted = (PREPARE, proposal.view, proposal.number, proposal.digest)
    matching = all((vote.tag, vote.view, vote.number, vote.digest) == wanted for vote in votes)
    differing = len(senders) == len(votes) and proposal.sender not in senders
    is_enough = proposal.sender == order.primary(proposal.view) and len(senders) >= 2 * order.faults
    inner = (certificate.proposal, *certificate.prepares, *proposal.batch.requests)
    return matching and differing and is_enough and all(order.keys.passes(each, order.me) for each in inner)


def is_valid(order, signed):
    """Whether a VIEW-CHANGE is its sender's, and proves its stable number and its certificates, which rise within the marks."""
    change = signed.message
    numbers = [change.stable] + [each.number for each in change.certificates]
    in_order = all(one < other for one, other in zip(numbers, numbers[1:])) and numbers[-1] <= change.stable + LOG_SIZE
    earlier = all(each.view < change.view for each in change.certificates)
    if change.stable == 0:
        stable = not change.checkpoints
    else:
        stable = order.is_certificate(change.checkpoints) and change.checkpoints[0].message.number == change.stable
    is_proved = in_order and earlier and stable and all(certifies(order, each) for each in change.certificates)
    return is_proved and order.keys.passes(signed, order.me)


def choice(changes):
    """The number that a new view begins behind, and the batch for each number that it takes over."""
    floor = max(change.stable for change in changes)
    prepared = {}
    for change in changes:
        for each in change.certificates:
            rank = (-each.view, change.sender, each.proposal.message.batch.text)
            prepared.setdefault(each.number, []).append((rank, each.proposal.message.batch))
    last = max([floor, *prepared])
    chosen = []
    for number in range(floor + 1, last + 1):
        batches = prepared.get(number)
        chosen.append((number, min(batches, key=lambda one: one[0])[1] if batches else NULL))
    return floor, chosen


def new_view_of(order, view, changes):
    """The NEW-VIEW of a primary, from VIEW-CHANGEs that it has found valid, and the number that the view begins behind."""
    floor, chosen = choice([each.message for each in changes])
    proposals = (order.keys.sign(PrePrepare(order.me, view, number, batch)) for number, batch in chosen)
    return order.keys.sign(NewView(order.me, view, tuple(changes), tuple(proposals))), floor


def check_new_view(order, signed):
    """Refuses a NEW-VIEW that is not right, and gives the number that the view begins behind."""
    new = signed.message
    refuse_if(new.sender != order.primary(new.view) or not order.keys.passes(signed, order.me), BAD_AUTHENTICATOR)
    refuse_if(not all(each.message.view == new.view and is_valid(order, each) for each in new.changes), BAD_CERTIFICATE)
    refuse_if(len({each.message.sender for each in new.changes}) < 2 * order.faults + 1, TOO_FEW)
    floor, chosen = choice([each.message for each in new.changes])
    wanted = [(new.sender, new.view, number, batch.text) for number, batch in chosen]
    proposed = [(each.sender, each.view, each.number, each.batch.text) for each in (given.message for given in new.proposals)]
    refuse_if(proposed != wanted or not all(order.keys.passes(each, order.me) for each in new.proposals), WRONG_CHOICE)
    return floor

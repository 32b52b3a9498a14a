"""One run of a policy, a baseline or the product, over arrivals."""

import collections

from edf import Request

Outcome = collections.namedtuple("Outcome", "accepted rejected responses")


def run(policy, arrivals, slots, until_done=False):
    """Runs a policy for this number of slots; with `until_done` also until all requests have ended.
    The outcome has the numbers of the accepted and the rejected requests, and the response time of
    each request that has ended. A guarantee that is not kept raises Missed."""
    accepted, rejected, arrived = [], [], {}
    place = 0
    while policy.now < slots or until_done and len(policy.ends) < len(accepted):
        policy.begin()
        while place < len(arrivals) and arrivals[place].slot == policy.now:
            arrival = arrivals[place]
            place += 1
            if arrival.kind == "sporadic":
                policy.sporadic((arrival.number, arrival.slot), arrival.number)
                continue
            arrived[arrival.number] = arrival.slot
            is_accepted = policy.offer(request_of(arrival))
            (accepted if is_accepted else rejected).append(arrival.number)
        policy.slot()
    policy.finish()
    responses = {name: end - arrived[name] for name, end in policy.ends.items()}
    return Outcome(accepted, rejected, responses)


def request_of(arrival):
    """The request of an arrival."""
    if arrival.kind == "soft":
        return Request(arrival.number, arrival.work)
    return Request(arrival.number, arrival.work, arrival.slot + arrival.within)

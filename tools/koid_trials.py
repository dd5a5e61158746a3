"""Trials of zxtt-import: logs that tell the koids of the objects of handles."""
import re

from importing import Import, entry, text_of
from order_trials import late
from trials import expect, lines_of

PACKET = {'key': 1, 'packet': '00' * 32}
GOT = {'packet': {'type': 'user', 'key': 1, 'bytes': '00' * 32}}


def adopted(trace):
    """What is told of each handle that comes from nowhere."""
    found = [re.match(r'# adopted: process (\d+), handle (0x.{8}), (.*)$', line) for line in lines_of(trace)]
    return [(int(it[1]), int(it[2], 16), it[3]) for it in found if it]


def comes_well(program, log, told):
    done = Import(program, text_of(log))
    expect('adopted', told, adopted(done.trace))
    done.expect_well()
    return done


def handles_of_one_koid_are_one_object(program, room):
    """Of two processes, of one, and of a message from outside; of other koids they are two."""
    queue = entry(1, 'port_queue', port=3, **PACKET)
    wait = entry(2, 'port_wait', port=5, out=GOT)
    same = [late(queue, koids={'0x3': 77}), late(wait, koids={'0x5': '77'})]
    comes_well(program, same, [(1, 3, 'port'), (2, 5, 'of the object of handle 0x00000003 of process 1')])
    own = [late(queue, koids={'0x3': 77}), late(entry(1, 'port_wait', port=5, out=GOT), koids={'5': 77})]
    comes_well(program, own, [(1, 3, 'port'), (1, 5, 'of the object of handle 0x00000003 of process 1')])
    came = late(entry(2, 'channel_read', handle=9, bytes=0, handles=1, out={'handles': [5]}), koids={'0x5': 77, '0x9': 99})
    comes_well(program, [same[0], came, wait],
               [(1, 3, 'port'), (2, 5, 'of the object of handle 0x00000003 of process 1'), (2, 9, 'channel')])
    apart = [late(queue, koids={'0x3': 77}), late(entry(2, 'port_wait', 'timed_out', port=5), koids={'0x5': 78})]
    comes_well(program, apart, [(1, 3, 'port'), (2, 5, 'port; taken for another object than the one of this kind before it')])
    third = entry(3, 'port_queue', port=3, **PACKET)
    for none in ({'0x5': None}, {'x': 77}, {'0x5': 0}, [], 7, {'5': 'x'}):
        done = Import(program, text_of([same[0], third, late(wait, koids=none)]))
        expect(f'{none}', (0, 1), (done.status, len(done.told())))


def ends_are_pairs_by_their_koids(program, room):
    """A channel and an event pair whose ends two processes have; where the peer of an end is told, no message joins it with another."""
    log = [
        late(entry(1, 'channel_write', handle=3, bytes='70'), koids={'3': 10}, related_koids={'3': 11}),
        late(entry(2, 'channel_read', handle=5, bytes=9, handles=0, out={'bytes': '70'}), koids={'5': 11}, related_koids={'5': 10}),
        late(entry(1, 'object_signal_peer', handle=7, clear=0, set=8), koids={'7': 20}, related_koids={'7': 21}),
        late(entry(2, 'handle_close', handle=9), koids={'9': 21}, related_koids={'9': 20}),
        entry(1, 'object_signal_peer', 'peer_closed', handle=7, clear=0, set=8),
    ]
    done = comes_well(program, log, [
        (1, 3, 'channel; joined with handle 0x00000005 of process 2 by their koids'),
        (1, 7, 'eventpair; joined with handle 0x00000009 of process 2 by their koids'),
    ])
    expect('pairs', 2, done.pairs())
    log[1]['koids'], log[1]['related_koids'] = {'5': 31}, {'5': 30}
    done = Import(program, text_of(log[:2]))
    expect('not joined', (0, 0, 0), (done.status, done.pairs(), len(done.told())))


def what_is_seen_tells_one_object(program, room):
    """A packet that was queued through one handle and got through another, and a signal; not where a third would do as well."""
    queue, wait = entry(1, 'port_queue', port=3, **PACKET), entry(2, 'port_wait', port=5, out=GOT)
    same = (2, 5, 'of the object of handle 0x00000003 of process 1')
    comes_well(program, [queue, wait], [(1, 3, 'port'), same])
    done = Import(program, text_of([queue, entry(3, 'port_queue', port=3, **PACKET), wait]))
    expect('a third', (0, 1, 3), (done.status, len(done.told()), len(adopted(done.trace))))
    signal = entry(1, 'object_signal', handle=3, clear=0, set=8)
    port = [entry(2, 'port_create', out={'handles': [7]}), entry(2, 'object_wait_async', handle=5, port=7, key=1, signals=8)]
    got = entry(2, 'port_wait', port=7, out={'packet': {'type': 'signal', 'key': 1, 'trigger': 8, 'observed': 8}})
    comes_well(program, [*port, signal, got], [(2, 5, 'event (no use tells its kind)'), (1, 3, 'of the object of handle 0x00000005 of process 2')])
    own = entry(2, 'object_signal', handle=5, clear=0, set=8)
    done = Import(program, text_of([*port, signal, own, got]))
    expect('its own', (0, 0, 2), (done.status, len(done.told()), len([it for it in adopted(done.trace) if 'of the object' not in it[2]])))


KOID_TRIALS = [handles_of_one_koid_are_one_object, ends_are_pairs_by_their_koids, what_is_seen_tells_one_object]

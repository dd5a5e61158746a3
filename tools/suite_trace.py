"""A long trace for the trials of what is looked at in a browser: a test suite whose root process gives jobs to workers over
channels, is told by a port when each is done, now and then asks in vain, and in some rounds loses an event in a queue."""

ROOT = 1025
WORKERS = 20
ROUNDS_TO_FAIL, ROUNDS_TO_LEAK = 50, 500  # in how many rounds a worker reads in vain, and an event is leaked


class Suite:
    """The calls so far, with the handles and koids that they give out."""

    def __init__(self):
        self.calls = []
        self.given = {ROOT: 1}
        self.next_koid = 1026
        self.leaked = []  # the events that were leaked, each with an end of a channel, and the moments at which they were
        self.failed = []  # the moments of the calls that fail
        self.port = self.handle(ROOT)
        self.call(ROOT, 'port_create')
        self.koid()
        self.workers = [self.worker() for _ in range(WORKERS)]

    def call(self, process, words):
        self.calls.append(f'{process} {words}')

    def handle(self, process):
        """The next handle of a process."""
        self.given[process] += 1
        return 3 + 4 * (self.given[process] - 1)

    def koid(self):
        """The koid of the next object."""
        self.next_koid += 1
        return self.next_koid - 1

    def channel(self):
        """The two handles of a channel that the root process makes."""
        self.call(ROOT, 'channel_create')
        self.koid(), self.koid()
        return self.handle(ROOT), self.handle(ROOT)

    def worker(self):
        """A worker with an end of a channel: its koid, and the root's end."""
        near, far = self.channel()
        self.call(ROOT, f'spawn 3 {far}')
        self.handle(ROOT)
        worker = self.koid()
        self.given[worker] = 1
        return worker, near

    def round(self, number):
        """A job for a worker: it is sent an event, and signals it, which the port tells."""
        worker, near = self.workers[number % WORKERS]
        if number % ROUNDS_TO_FAIL == ROUNDS_TO_FAIL - 1:
            self.call(worker, 'channel_read 3 64 4')
            self.failed.append(len(self.calls))
        event = self.handle(ROOT)
        self.call(ROOT, 'event_create')
        koid = self.koid()
        self.call(ROOT, f'object_wait_async {event} {self.port} {number} 0x00000008')
        copy = self.handle(ROOT)
        self.call(ROOT, f'handle_duplicate {event} 0x80000000')
        self.call(ROOT, f"channel_write {near} {f'job {number}'.encode().hex()} {copy}")
        got = self.handle(worker)
        self.call(worker, 'channel_read 3 64 4')
        self.call(worker, f'object_signal {got} 0x00000000 0x00000008')
        self.call(worker, f'handle_close {got}')
        self.call(ROOT, f'port_wait {self.port}')
        if number % ROUNDS_TO_LEAK == ROUNDS_TO_LEAK - 1:
            self.leak(event, koid)
        else:
            self.call(ROOT, f'handle_close {event}')

    def leak(self, event, koid):
        """The event goes into a queue whose reading end is then sent into that queue itself."""
        near, far = self.channel()
        self.call(ROOT, f'channel_write {near} 6c617374 {event}')
        self.call(ROOT, f'channel_write {near} 73746172 {far}')
        self.leaked.append((koid, len(self.calls)))
        self.call(ROOT, f'handle_close {near}')


def write_suite(path, length):
    """Writes a trace of so many calls: what was made."""
    suite = Suite()
    number = 0
    while len(suite.calls) < length:
        suite.round(number)
        number += 1
    with open(path, 'w', encoding='ascii') as file:
        file.write('zxtt 1\n' + ''.join(f'{call}\n' for call in suite.calls[:length]))
    return suite

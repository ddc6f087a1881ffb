"""Faulty queues, and one for two threads alone. No faulty one sleeps or waits on purpose."""
import threading


class LostUpdate:
    """A ring without a lock: a put reads the tail, and later writes it."""

    def __init__(self, capacity):
        self.slots = [0] * capacity
        self.head_lock = threading.Lock()
        self.tail = 0
        self.head = 0

    def room(self):
        return len(self.slots) - (self.tail - self.head)

    def put(self, item):
        place = self.tail
        if self.room() <= 0:
            return False
        self.slots[place % len(self.slots)] = item
        self.tail = place + 1
        return True

    def get(self):
        with self.head_lock:
            if self.head >= self.tail:
                return None
            item = self.slots[self.head % len(self.slots)]
            self.head += 1
            return item


class TestOutside:
    """A ring with a lock for each end. The tests of its length stand outside them."""

    def __init__(self, capacity):
        self.slots = [0] * capacity
        self.in_lock, self.out_lock = threading.Lock(), threading.Lock()
        self.tail = 0
        self.head = 0

    def put(self, item):
        if self.tail - self.head >= len(self.slots):
            return False
        with self.in_lock:
            self.slots[self.tail % len(self.slots)] = item
            self.tail += 1
        return True

    def get(self):
        if self.tail - self.head <= 0:
            return None
        with self.out_lock:
            item = self.slots[self.head % len(self.slots)]
            self.head += 1
        return item


class Wrapping:
    """A ring behind a lock with counts of 8 bits, and a length that need not divide 256: 3 for 4, 6 for 8."""

    def __init__(self, capacity):
        self.slots = [0] * (capacity - capacity // 4)
        self.lock = threading.Lock()
        self.tail = 0
        self.head = 0

    def put(self, item):
        with self.lock:
            if (self.tail - self.head) & 0xFF == len(self.slots):
                return False
            self.slots[self.tail % len(self.slots)] = item
            self.tail = (self.tail + 1) & 0xFF
            return True

    def get(self):
        with self.lock:
            if self.tail == self.head:
                return None
            item = self.slots[self.head % len(self.slots)]
            self.head = (self.head + 1) & 0xFF
            return item


class Pair:
    """A ring for one producer and one consumer, without a lock."""

    def __init__(self, capacity):
        self.slots = [0] * capacity
        self.tail = 0
        self.head = 0

    def put(self, item):
        if self.tail - self.head >= len(self.slots):
            return False
        self.slots[self.tail % len(self.slots)] = item
        self.tail += 1
        return True

    def get(self):
        if self.tail == self.head:
            return None
        item = self.slots[self.head % len(self.slots)]
        self.head += 1
        return item

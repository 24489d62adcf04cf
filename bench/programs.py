"""The programs of programs.gs: programs.py NAME TIMES; a loop: programs.py TEXT TURNS."""
import sys


class Sieve:
    def run(self):
        flags = [None] * 5000
        for i in range(5000):
            flags[i] = True
        count = 0
        for i in range(2, 5001):
            if flags[i - 2]:
                count = count + 1
                k = i + i
                while k <= 5000:
                    flags[k - 2] = False
                    k = k + i
        return count


class Permute:
    def run(self):
        self.count = 0
        self.values = [None] * 6
        for i in range(6):
            self.values[i] = i
        self.permute(6)
        return self.count

    def permute(self, n):
        self.count = self.count + 1
        if n == 0:
            return
        self.permute(n - 1)
        i = n
        while i >= 1:
            self.swap(n - 1, i - 1)
            self.permute(n - 1)
            self.swap(n - 1, i - 1)
            i = i - 1

    def swap(self, i, j):
        kept = self.values[i]
        self.values[i] = self.values[j]
        self.values[j] = kept


class Queens:
    def run(self):
        self.rows = self.free(8)
        self.maxs = self.free(16)
        self.mins = self.free(16)
        self.places = [None] * 8
        return self.place(0)

    def free(self, size):
        free = [None] * size
        for i in range(size):
            free[i] = True
        return free

    def place(self, column):
        for row in range(8):
            if self.is_free(row, column):
                self.places[row] = column
                self.set(row, column, False)
                if column == 7:
                    return True
                if self.place(column + 1):
                    return True
                self.set(row, column, True)
        return False

    def is_free(self, row, column):
        return self.rows[row] and self.maxs[column + row] and self.mins[column - row + 7]

    def set(self, row, column, free):
        self.rows[row] = free
        self.maxs[column + row] = free
        self.mins[column - row + 7] = free


class Disk:
    def __init__(self):
        self.size = None
        self.next = None

    def get_size(self):
        return self.size

    def set_size(self, number):
        self.size = number

    def get_next(self):
        return self.next

    def set_next(self, disk):
        self.next = disk


class Towers:
    def run(self):
        self.piles = [None] * 3
        self.build(0, 10)
        self.moved = 0
        self.move(10, 0, 1)
        return self.moved

    def build(self, pile, disks):
        left = disks
        while left >= 1:
            disk = Disk()
            disk.set_size(left)
            self.push(disk, pile)
            left = left - 1

    def push(self, disk, pile):
        top = self.piles[pile]
        if top is not None and disk.get_size() >= top.get_size():
            raise ValueError("a large disk on a small one")
        disk.set_next(top)
        self.piles[pile] = disk

    def pop(self, pile):
        top = self.piles[pile]
        if top is None:
            raise ValueError("no disk")
        self.piles[pile] = top.get_next()
        top.set_next(None)
        return top

    def move_top(self, source, target):
        self.push(self.pop(source), target)
        self.moved = self.moved + 1

    def move(self, disks, source, target):
        if disks == 1:
            return self.move_top(source, target)
        other = 3 - source - target
        self.move(disks - 1, source, other)
        self.move_top(source, target)
        self.move(disks - 1, other, target)


class Element:
    def __init__(self):
        self.value = None
        self.next = None

    def get_next(self):
        return self.next

    def set_value(self, number):
        self.value = number

    def set_next(self, element):
        self.next = element

    def length(self):
        if self.next is None:
            return 1
        return 1 + self.next.length()


class ListRun:
    def run(self):
        return self.tail(self.make(15), self.make(10), self.make(6)).length()

    def make(self, length):
        if length == 0:
            return None
        element = Element()
        element.set_value(length)
        element.set_next(self.make(length - 1))
        return element

    def is_shorter(self, x, y):
        one = x
        other = y
        while other is not None:
            if one is None:
                return True
            one = one.get_next()
            other = other.get_next()
        return False

    def tail(self, x, y, z):
        if not self.is_shorter(y, x):
            return z
        return self.tail(
            self.tail(x.get_next(), y, z),
            self.tail(y.get_next(), z, x),
            self.tail(z.get_next(), x, y),
        )


class Random:
    def start(self):
        self.seed = 74755

    def next(self):
        self.seed = ((self.seed * 1309) + 13849) & 65535
        return self.seed


class Storage:
    def run(self):
        random = Random()
        random.start()
        self.count = 0
        self.build(7, random)
        return self.count

    def build(self, depth, random):
        self.count = self.count + 1
        if depth == 1:
            return [None] * (random.next() % 10 + 1)
        built = [None] * 4
        for i in range(4):
            built[i] = self.build(depth - 1, random)
        return built


class Ball:
    def start(self, random):
        self.x = random.next() % 500
        self.y = random.next() % 500
        self.x_speed = random.next() % 300 - 150
        self.y_speed = random.next() % 300 - 150

    def bounce(self):
        bounced = False
        self.x = self.x + self.x_speed
        self.y = self.y + self.y_speed
        if self.x > 500:
            self.x = 500
            self.x_speed = 0 - abs(self.x_speed)
            bounced = True
        if self.x < 0:
            self.x = 0
            self.x_speed = abs(self.x_speed)
            bounced = True
        if self.y > 500:
            self.y = 500
            self.y_speed = 0 - abs(self.y_speed)
            bounced = True
        if self.y < 0:
            self.y = 0
            self.y_speed = abs(self.y_speed)
            bounced = True
        return bounced


class Bounce:
    def run(self):
        random = Random()
        random.start()
        balls = [None] * 100
        for i in range(100):
            ball = Ball()
            ball.start(random)
            balls[i] = ball
        bounces = 0
        for _ in range(50):
            for ball in balls:
                if ball.bounce():
                    bounces = bounces + 1
        return bounces


class Point:
    def __init__(self):
        self.a = None

    def me(self):
        return self

    def kept(self):
        t = self
        return t

    def both(self, a, b):
        t = a
        return t

    def x(self):
        return self.a

    def set_x(self, value):
        self.a = value


def loop(text):
    """A function with this loop in it, whose turns are TURNS."""
    scope = {"Point": Point}
    exec("def run(TURNS):\n    p = Point()\n    items = [None] * 10\n"
         "    one = 'abc'\n    two = 'def'\n    block = lambda v: v\n" + text, scope)
    return scope["run"]


def main():
    name, times = sys.argv[1], int(sys.argv[2])
    if name in globals():
        for _ in range(times):
            result = globals()[name]().run()
        print(result)
    else:
        loop(name)(times)


main()

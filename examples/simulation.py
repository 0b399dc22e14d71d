# A simulation on random numbers that are the same in each run: points thrown at a square and a walk on a line.
# The generator is the linear congruential one of 64 bits. Its product wraps, and its upper bits are the ones to use.

class Random:
    state: int

    def below(self, limit: int) -> int:
        self.state = self.state * 6364136223846793005 + 1442695040888963407
        return ((self.state >> 33) & 2147483647) % limit


def points_in_circle(random: Random, points: int, radius: int) -> int:
    inside = 0
    for _ in range(points):
        x = random.below(radius)
        y = random.below(radius)
        if x * x + y * y < radius * radius:
            inside += 1
    return inside


def walk(random: Random, turns: int) -> tuple[int, int]:
    place = 0
    farthest = 0
    for _ in range(turns):
        place += 1 if random.below(2) == 1 else -1
        farthest = max(farthest, abs(place))
    return place, farthest


random = Random(2026)
print('six throws:', [random.below(6) + 1 for _ in range(6)])
inside = points_in_circle(random, 2000, 1000000)
print(inside, 'of 2000 points in the circle, so pi is about', inside * 4000 // 2000, 'thousandths')
place, farthest = walk(random, 1000)
print('the walk ends at', place, 'and was at most', farthest, 'from home')

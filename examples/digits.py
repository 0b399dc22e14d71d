# Statistics of the digit sums of many numbers, gathered in one object. Each of its fields is brought up to date by one
# operator alone, so the parallel loop gives what the loop in order gives.

class Statistics:
    """How many values there were, their sum, the least and the greatest."""
    count: int
    total: int
    least: int
    greatest: int

    def __init__(self, first: int):
        self.count = 1
        self.total = first
        self.least = first
        self.greatest = first

    def record(self, value: int):
        self.count += 1
        self.total += value
        self.least = min(self.least, value)
        self.greatest = max(self.greatest, value)

    def mean(self) -> int:
        return self.total // self.count


def digit_sum(number: int) -> int:
    total = 0
    while number > 0:
        total += number % 10
        number //= 10
    return total


sums = Statistics(digit_sum(1000))
@par
for number in range(1001, 3000):
    sums.record(digit_sum(number))

print('numbers:', sums.count)
print('least', sums.least, 'greatest', sums.greatest, 'mean', sums.mean(), sep=' | ')

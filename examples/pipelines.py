# Pipelines: `|>` hands a value on, a generator hands on each of its items, and what follows `||>` may run in parallel.

class Total:
    items: int
    sum: int


def count_up(limit: int):
    for number in range(1, limit + 1):
        yield number


def divisible(number: int, divisor: int):
    if number % divisor == 0:
        yield number


def square(number: int) -> int:
    return number * number


def pairs(number: int):
    for other in range(1, number):
        yield number, other


def two_digits(pair: tuple[int, int]) -> int:
    return pair[0] * 10 + pair[1]


def add(number: int, total: Total):
    total.items += 1
    total.sum += number


12 |> count_up |> divisible(3) |> square |> print('is the square of a multiple of three')
[2, 3, 4] |> iter |> pairs |> two_digits |> print(end=' ')
print('are numbers of a digit and a smaller one')

total = Total(0, 0)
range(1, 1001) |> iter |> divisible(7) ||> square |> add(total)
print(total.items, 'squares, together', total.sum)

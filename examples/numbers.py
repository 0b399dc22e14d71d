# Small functions on whole numbers, most of them recursive: Fibonacci numbers, greatest common divisors, powers to a modulus.

def fibonacci(n: int) -> int:
    return n if n < 2 else fibonacci(n - 1) + fibonacci(n - 2)


def gcd(a: int, b: int) -> int:
    return abs(a) if b == 0 else gcd(b, a % b)


def power_mod(base: int, exponent: int, modulus: int) -> int:
    if exponent == 0:
        return 1
    half = power_mod(base, exponent // 2, modulus)
    square = half * half % modulus
    return square * base % modulus if exponent % 2 == 1 else square


def binary(n: int) -> str:
    return str(n) if n < 2 else binary(n // 2) + str(n % 2)


def moves(disks: int, source: int, target: int, trace: list[tuple[int, int]]):
    if disks > 0:
        spare = 6 - source - target
        moves(disks - 1, source, spare, trace)
        trace.append((source, target))
        moves(disks - 1, spare, target, trace)


print([fibonacci(n) for n in range(15)])
print(gcd(1071, 462), gcd(-48, 36), gcd(17, 5))
print(power_mod(3, 1000, 1000003), power_mod(2, 1000002, 1000003))
print(binary(2026), 0b11111101010)

trace: list[tuple[int, int]] = []
moves(3, 1, 3, trace)
print(len(trace), 'moves:', trace)

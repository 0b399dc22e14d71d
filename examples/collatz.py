# The longest Collatz chain that starts below a limit. Each start is tried by itself, so the loop may run in parallel.

LIMIT = 500


def steps(number: int) -> int:
    count = 0
    while number != 1:
        number = number // 2 if number % 2 == 0 else 3 * number + 1
        count += 1
    return count


longest = 0
total = 0
@par(schedule='dynamic', chunk_size=16, num_threads=4)
for start in range(1, LIMIT):
    length = steps(start)
    longest = max(longest, length)
    total += length

# The least start whose chain is that long.
first = 1
while steps(first) < longest:
    first += 1

print('longest chain:', longest, 'steps, from', first)
print('steps in all:', total)

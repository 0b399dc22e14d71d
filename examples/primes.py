# The primes below a limit, by the sieve of Eratosthenes: how many there are, the largest ones, and how many pairs of twins.

LIMIT = 5000


def sieve(limit: int) -> list[bool]:
    is_prime = [True] * limit
    is_prime[0] = False
    is_prime[1] = False
    candidate = 2
    while candidate * candidate < limit:
        if is_prime[candidate]:
            for multiple in range(candidate * candidate, limit, candidate):
                is_prime[multiple] = False
        candidate += 1
    return is_prime


is_prime = sieve(LIMIT)
primes = [number for number in range(LIMIT) if is_prime[number]]

twins = 0
for number in primes:
    if number + 2 < LIMIT and is_prime[number + 2]:
        twins += 1

print(len(primes), 'primes below', LIMIT)
print('the first:', primes[:10])
print('the last:', primes[-5:])
print(twins, 'pairs of twins')

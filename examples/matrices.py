# Matrices as lists of rows. Place (i, j) of the n-th power of a graph's matrix is the number of walks of n steps from i to j.

def product(left: list[list[int]], right: list[list[int]]) -> list[list[int]]:
    rows: list[list[int]] = []
    for row in left:
        sums = [0] * len(right[0])
        for k in range(len(right)):
            for j in range(len(sums)):
                sums[j] += row[k] * right[k][j]
        rows.append(sums)
    return rows


def identity(size: int) -> list[list[int]]:
    return [[1 if i == j else 0 for j in range(size)] for i in range(size)]


def power(matrix: list[list[int]], exponent: int) -> list[list[int]]:
    result = identity(len(matrix))
    while exponent > 0:
        if exponent % 2 == 1:
            result = product(result, matrix)
        matrix = product(matrix, matrix)
        exponent //= 2
    return result


# Four rooms: doors lead from each to the next and back, and one more from the last to the first.
doors = [[0, 1, 0, 0], [1, 0, 1, 0], [0, 1, 0, 1], [1, 0, 1, 0]]

for row in power(doors, 6):
    print(row)
print('walks of 30 steps from room 0 back to it:', power(doors, 30)[0][0])
print('product with the identity is the same:', product(doors, identity(4)) == doors)

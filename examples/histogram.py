# A histogram of the points in an examination: a line for each band of ten points, with a bar as long as the band is full.

BAND = 10
MOST = 100

points = [67, 82, 91, 45, 73, 88, 59, 100, 76, 64, 85, 91, 38, 70, 79, 95, 52, 83, 68, 74, 61, 77]


def count_bands(values: list[int]) -> list[int]:
    counts = [0] * (MOST // BAND + 1)
    for value in values:
        counts[value // BAND] += 1
    return counts


def padded(number: int, width: int) -> str:
    text = str(number)
    return ' ' * (width - len(text)) + text


counts = count_bands(points)
assert sum(counts) == len(points), 'a value is in no band'
print('points, and how many have so many:')
for band, count in enumerate(counts):
    if count > 0:
        print(padded(band * BAND, 3), '#' * count, count)
print('least', min(points), 'greatest', max(points), 'mean', sum(points) // len(points))

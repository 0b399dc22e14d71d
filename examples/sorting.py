# Two ways to sort a list: insertion sort moves the values of the list itself, merge sort makes a new one.

def insertion_sort(values: list[int]):
    for place in range(1, len(values)):
        value = values[place]
        hole = place
        while hole > 0 and values[hole - 1] > value:
            values[hole] = values[hole - 1]
            hole -= 1
        values[hole] = value


def merged(left: list[int], right: list[int]) -> list[int]:
    result: list[int] = []
    i = 0
    j = 0
    while i < len(left) and j < len(right):
        if left[i] <= right[j]:
            result.append(left[i])
            i += 1
        else:
            result.append(right[j])
            j += 1
    return result + left[i:] + right[j:]


def merge_sort(values: list[int]) -> list[int]:
    if len(values) < 2:
        return values.copy()
    middle = len(values) // 2
    return merged(merge_sort(values[:middle]), merge_sort(values[middle:]))


values = [place * 37 % 101 - 50 for place in range(60)]
by_merging = merge_sort(values)
by_inserting = values.copy()
insertion_sort(by_inserting)

print('before:', values[:8])
print('after:', by_merging[:8])
print('both agree:', by_merging == by_inserting)
print('in order:', all([by_merging[i] <= by_merging[i + 1] for i in range(len(values) - 1)]))

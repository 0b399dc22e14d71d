# Texts without methods: cutting a line into words, joining words, turning a word round, and finding the palindromes.

def split(line: str, separator: str) -> list[str]:
    words: list[str] = []
    start = 0
    for place in range(len(line)):
        if line[place] == separator:
            words.append(line[start:place])
            start = place + 1
    words.append(line[start:])
    return words


def join(words: list[str], separator: str) -> str:
    joined = ''
    for place, word in enumerate(words):
        joined += word if place == 0 else separator + word
    return joined


def turned(word: str) -> str:
    letters = [letter for letter in reversed(word)]
    return join(letters, '')


def shifted(letter: str, by: int) -> str:
    return chr((ord(letter) - ord('a') + by) % 26 + ord('a'))


words = split('level noon kayak compiler civic parser', ' ')
print(words)
print(join([word for word in words if word == turned(word)], ', '))
print(turned('stressed'), 'compiler'[:4], 'compiler'[-3:], 'pile' in 'compiler')
print(join([shifted(letter, 13) for letter in 'uryyb'], ''))
print(join(['say', "it's", 'a "word"'], ' '))

days = 365
hours = days * 24
minutes = hours * 60

print(minutes)
print(minutes * 60 - 1)
print(9223372036854775807 + 1)

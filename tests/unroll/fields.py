"""The field of p elements and that of p² elements."""

PRIME = 2**31 - 1


class Field:
    """A field whose elements are tuples of so many numbers below p: u alone, or u and v of u + v·i with i² = -1."""

    def __init__(self, numbers):
        self.numbers = numbers

    def embedded(self, number):
        """The element that a number below p is."""
        return (number,) + (0,) * (self.numbers - 1)

    def elements(self, numbers):
        """The elements that a list of numbers is, the numbers of each one behind the other."""
        return list(zip(*(numbers[part :: self.numbers] for part in range(self.numbers)), strict=True))

    def sum(self, one, other):
        """The sum of two elements."""
        return tuple((x + y) % PRIME for x, y in zip(one, other, strict=True))

    def difference(self, one, other):
        """The first element less the second."""
        return tuple((x - y) % PRIME for x, y in zip(one, other, strict=True))

    def product(self, one, other):
        """The product, term by term: those with no i and with i² = -1 go to u, those with one i to v."""
        product = [0] * self.numbers
        for i, x in enumerate(one):
            for j, y in enumerate(other):
                product[(i + j) % 2] += -x * y if i + j == 2 else x * y
        return tuple(number % PRIME for number in product)


# The field of p elements, and that of p² elements (02, E2).
F_P, F_P2 = Field(1), Field(2)

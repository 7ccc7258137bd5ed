"""Lists of numbers in few words, and lines that aren't too long."""
import textwrap

WIDTH = 100


def ranged(numbers, to=' to ', comma=', '):
    """Ascending numbers, of which three and more in a row are told by the first and the last."""
    runs = []
    for number in numbers:
        if runs and runs[-1][-1] == number - 1:
            runs[-1].append(number)
        else:
            runs.append([number])
    parts = []
    for run in runs:
        parts += [f'{run[0]}{to}{run[-1]}'] if len(run) > 2 else map(str, run)
    return comma.join(parts)


def named(noun, numbers):
    """The numbers behind what they are numbers of."""
    return f'{noun}{"s" * (len(numbers) > 1)} {ranged(numbers)}'


def filled(text, head='', rest='  '):
    return textwrap.wrap(text, WIDTH, initial_indent=head, subsequent_indent=rest, break_on_hyphens=False)


def wrapped(head, text):
    """The text behind its head, which is indented, in lines that stand below each other."""
    head = f'  {head:<13}'
    return filled(text, head, ' ' * len(head))

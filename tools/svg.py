"""What the pictures in SVG share: text that stands in them, a frame with a title and a description, and colours for light and dark."""
import html

LIGHT = {'page': '#ffffff', 'ink': '#1f2328', 'faint': '#59636e', 'rule': '#c4ccd4', 'good': '#116329', 'tint': '#dafbe1', 'bad': '#b3151f',
         'blot': '#fff0ee'}
DARK = {'page': '#0d1117', 'ink': '#f0f6fc', 'faint': '#a3adb8', 'rule': '#4a525b', 'good': '#6fdd8b', 'tint': '#12361f', 'bad': '#ff9a94',
        'blot': '#3d1417'}
FONT = 'text { font: %gpx system-ui, "Segoe UI", Roboto, "Helvetica Neue", Arial, sans-serif; fill: %s } .page { fill: %s }'
FONT_SIZE = 12
# How wide a character is at most on the average, in the fonts that are likely.
CHARACTER = 6.6

# Control characters, for which the text shows their pictures, and two more that XML has no room for.
UNSHOWN = {number: 0x2400 + number for number in range(32) if number != 9} | {127: 0x2421, 0xfffe: 0xfffd, 0xffff: 0xfffd}


def readable(text):
    """Bytes as characters that a picture can show."""
    return text.decode(errors='replace').translate(UNSHOWN)


def escaped(text):
    """A text as it stands in HTML or XML."""
    return html.escape(text)


def shortened(text, most):
    return text if len(text) <= most else text[:most - 1] + '…'


def width_of(text):
    """How many pixels a text takes at most, as a rule."""
    return CHARACTER * len(text)


def style(rules):
    """The style of a picture, with the colours of both palettes put into its rules by their names."""
    rules = FONT % (FONT_SIZE, '%(ink)s', '%(page)s') + ' ' + rules
    return '<style>%s @media (prefers-color-scheme: dark) { %s }</style>' % (rules % LIGHT, rules % DARK)


def framed(width, height, title, description, rules, parts):
    """A picture of this size in pixels, of parts that use the classes of the rules."""
    head = ('<svg xmlns="http://www.w3.org/2000/svg" width="{0:g}" height="{1:g}" viewBox="0 0 {0:g} {1:g}" role="img" '
            'aria-labelledby="title" aria-describedby="description">'.format(width, height))
    return '\n'.join([head, '<title id="title">%s</title>' % escaped(title), '<desc id="description">%s</desc>' % escaped(description),
                      style(rules), '<rect class="page" width="100%" height="100%"/>', *parts, '</svg>\n'])

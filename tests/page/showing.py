"""What a tab shows of the page, as one who looks at it has it: texts, and not what the page keeps."""

import contextlib
import json
import pathlib
import time

from asking import Client
from scene import Scene

PAGE = pathlib.Path(__file__).resolve().parents[2] / "page" / "index.html"
POLICY = "default-src 'none'; script-src 'unsafe-inline'; style-src 'unsafe-inline'; connect-src 'self'"
POLICY += "; frame-ancestors 'none'"
SERVES = ("--port", "0", "--page", PAGE, "--http")

# the state of the server, and the banner below it where there is one
STATE = """['#state', '#news'].map(it => document.querySelector(it)).filter(it => it?.checkVisibility())
  .map(it => it.textContent).join(': ')"""
COUNT = "document.querySelector('#count')?.textContent ?? ''"
HEADS = "[...document.querySelectorAll('thead th')].map(it => it.textContent)"
# chips stand in lines of their own
ROWS = """[...document.querySelectorAll('tbody tr')].map(row => [...row.cells].map(cell =>
  cell.querySelector('.chip') ? [...cell.children].map(it => it.textContent).join('\\n') : cell.textContent))"""
ELEMENTS = "document.querySelectorAll('*').length"
LIST = "[...document.querySelectorAll('%s > *')].map(it => it.textContent)"
TEXT = "(it => it?.checkVisibility() ? it.textContent : '')(document.querySelector('%s'))"
DONE, HEARD, BLANK, NAME = (TEXT % it for it in ("#done", "#heard", "#blank h3", "#device-name"))
# each observation: what it is of, where and in which format with the age of its value, and its value
WATCHES = """[...document.querySelectorAll('.watch')].map(it => [...it.querySelectorAll('div > div > div, strong')]
  .map(it => it.textContent.replace(/, \\d+ s ago$/, ', just now')))"""
NOTICES = "[...document.querySelectorAll('#notices li')].map(it => it.lastChild.textContent)"
TIMES = "[...document.querySelectorAll('#notices time')].map(it => it.textContent)"
# what happened: who, and what
FEED = "[...document.querySelectorAll('#feed li')].map(it => [...it.children].slice(1).map(it => it.textContent))"
# the resources of the device that is open: path, value, and what its button says
LEAVES = """Object.fromEntries([...document.querySelectorAll('.leaf')].map(it => {
  const [name, value, button] = it.children;
  return [button.ariaLabel.split(' ')[1], [value.textContent, button.hidden ? '' : button.textContent]];
}))"""
# what a filter offers
OFFERS = "[...document.querySelectorAll('%s option')].map(it => it.textContent)"
# how many each tile counts, by what it says
TILES = """Object.fromEntries([...document.querySelectorAll('.tile')].map(it => [...it.children].reverse())
  .map(([words, count]) => [words.textContent, count.textContent]))"""
IS_SHOWN = "document.querySelector('%s').checkVisibility()"
PUT_FOCUS = "document.querySelector('%s').focus()"
PRESS = "[...document.querySelectorAll('button')].find(it => it.textContent == '%s').click()"
# the lines of a fetch that failed since there is no server
NO_SERVER = ("net::ERR_CONNECTION_REFUSED", "net::ERR_EMPTY_RESPONSE", "net::ERR_CONNECTION_RESET")
# how long after a change the page may show it
SOON = 2.5


class PageScene(Scene):
    """A scene with a browser, where one can be had, and a folder or a file for pictures, where one is given."""

    browser = pictures = picture = None

    def serves(self, *words, visited="127.0.0.1:0", **further):
        return self.serving(*words, *SERVES, visited, **further)

    @contextlib.contextmanager
    def shows(self, server, part, but=()):
        """A tab that shows the page. In the end nothing stands in its console but lines of fetches that failed so."""
        with self.browser.tab() as tab:
            tab.opens("http://%s:%d/" % server.visited)
            yield tab
            self.holds(f"{part}: the console", tab.of_console(but), [])
            self.holds(f"{part}: dialogs", tab.dialogs(), [])

    @contextlib.contextmanager
    def shown(self, part, but=()):
        """A server that keeps nothing, a tab that shows it, and a client of it."""
        with self.serves("--memory") as server, self.shows(server, part, but) as tab, Client(server.port) as client:
            yield server, tab, client

    def sees(self, check, tab, expression, want, wait=10.0):
        """What an expression of the page comes to be within that time."""
        self.holds(check, tab.awaits(expression, lambda found: found == want, wait), want)

    def hears(self, check, tab, words, wait=10.0):
        """The page says this of the server within that time."""
        found = tab.awaits(STATE, lambda state: words in state, wait)
        self.is_true(check, words in found, found)

    def sees_soon(self, check, tab, is_right):
        """The table is right within the time in which a change is to be seen."""
        begun = time.monotonic()
        found = tab.awaits(ROWS, lambda _: is_right(rows_of(tab)), 5 * SOON)
        took = time.monotonic() - begun
        self.is_true(check, is_right(rows_of(tab)) and took < SOON, (round(took, 2), found))


def rows_of(tab):
    """The rows that are shown, by endpoint: the text of each cell by the head of its column."""
    heads = tab.value(HEADS)
    return {cells[0]: dict(zip(heads[1:], cells[1:], strict=True)) for cells in tab.value(ROWS)}


def list_of(tab, name):
    """What a list of the page tells, by what it is called."""
    cells = tab.value(LIST % name)
    return dict(zip(cells[::2], cells[1::2], strict=True))


def looks_at(tab, view):
    tab.value(f"location.hash = '#view={view}'")


def opens_device(tab, endpoint):
    tab.value(f"location.hash = '#endpoint=' + encodeURIComponent({json.dumps(endpoint)})")


def chooses(tab, field, value):
    """Chooses of a list, as one who looks does."""
    words = f"it.value = {json.dumps(value)}; it.dispatchEvent(new Event('change'));"
    tab.value(f"(it => {{ {words} }})(document.querySelector('{field}'))")


def orders(tab, path, accept=""):
    """Types what is to be observed, and has it observed by the keyboard."""
    chooses(tab, "#accept", accept)
    tab.value(PUT_FOCUS % "#path")
    tab.value("document.querySelector('#path').value = ''")
    tab.types(path)
    tab.presses("Enter")


def searches(tab, words):
    tab.value(PUT_FOCUS % "#search")
    tab.value("document.querySelector('#search').select()")
    tab.types(words) if words else tab.presses("Backspace")


def presses_tile(tab, words):
    tab.value(f"[...document.querySelectorAll('.tile')].find(it => it.lastChild.textContent == '{words}').click()")


def presses_leaf(tab, path):
    """Presses the button of a resource."""
    tab.value(f"[...document.querySelectorAll('.leaf button')].find(it => it.ariaLabel.endsWith(' {path}')).click()")

"""The page: what it has, and what a browser shows of it."""
import json
import re
import shutil
import subprocess
import tempfile
import unittest
from html import unescape
from pathlib import Path

from superc_text import Diagrams, Expressions
from superc_text.heads import Heads
from superc_text.page import Page
from superc_text.page_lines import SourceFile, plain_name

from .helpers import README_TEXT, TREE_TEXT, document

DATA = Path(__file__).parent / "data"
TOP = Path(__file__).resolve().parent.parent.parent
BROWSER = next(
    filter(None, map(shutil.which, ("chromium", "chromium-browser", "google-chrome"))), None
)

# Clicks each button that it is asked for, and tells which parts of the source are grey then.
SCRIPT = """<script>{
const away = getComputedStyle(document.documentElement).getPropertyValue("--away").trim();
const probe = document.createElement("p");
probe.style.color = away;
document.body.append(probe);
const grey = getComputedStyle(probe).color;
const answers = [];
for (const [key, value] of CLICKS) {
  document.querySelector(`input[name=${key}][value="${value}"]`).click();
  const parts = [...document.querySelectorAll("#lines b")].filter((part) => getComputedStyle(part).color === grey);
  answers.push([parts.map((part) => part.textContent), document.getElementById("verdict").textContent]);
}
const told = document.getElementById("told");
document.querySelector("#lines b")?.dispatchEvent(new MouseEvent("mouseover", { bubbles: true }));
answers.push(told.textContent);
for (const key of ["n", "n"]) document.dispatchEvent(new KeyboardEvent("keydown", { key }));
answers.push(told.textContent, getComputedStyle(document.body).backgroundColor);
probe.id = "answers";
probe.textContent = JSON.stringify(answers);
}</script>"""


# Goes over a page of source, and tells what is there after each step.
SOURCE_SCRIPT = """<script>{
const answers = {};
const at = (id) => document.getElementById(id);
const away = getComputedStyle(document.documentElement).getPropertyValue("--away").trim();
const probe = document.createElement("p");
probe.style.color = away;
document.body.append(probe);
const grey = getComputedStyle(probe).color;
const greyed = () => [...document.querySelectorAll("#lines div[id]")].filter((row) => getComputedStyle(row).color === grey).map((row) => row.id);
const key = (name, target = document) => target.dispatchEvent(new KeyboardEvent("keydown", { key: name, bubbles: true }));
const chosen = () => document.querySelector("#lines .chosen")?.id;

answers.opened = [chosen(), location.hash, at("verdict").textContent, document.querySelector("#tree summary").textContent];
answers.greyed = greyed();
answers.gutter = ["F1L9", "F1L5"].map((id) => at(id).querySelector("u").textContent);
search.value = "spin_lock";
search.dispatchEvent(new Event("input"));
answers.found = [at("found").textContent];
for (const _ of [1, 2]) key("Enter", search);
answers.found.push(document.querySelector(".hit").id, at("found").textContent);
search.value = "when defined(CONFIG_SMP)";
search.dispatchEvent(new Event("input"));
answers.byCondition = at("found").textContent;
document.querySelector('input[name=v3][value="0"]').click();
answers.clicked = [location.hash, greyed()];
document.querySelector("#L12 i").click();
answers.line = [chosen(), location.hash];
key("f");
answers.fault = [chosen(), at("told").textContent];
const fold = document.querySelector("#L4 s");
fold.click();
answers.folded = [at("L5"), at("L6")].map((row) => getComputedStyle(row).display);
fold.click();
answers.unfolded = getComputedStyle(at("L5")).display;
document.querySelector("#L31 em").click();
answers.expansion = [...at("L31").nextElementSibling.children].map((piece) => [piece.textContent, piece.dataset.c in expressions]);
document.querySelector("#L31 em").click();
answers.closed = at("L31").nextElementSibling.id;
key("n");
answers.next = chosen();
key("/");
answers.focus = document.activeElement.id;
probe.id = "answers";
probe.textContent = JSON.stringify(answers);
}</script>"""


def source_page(text: bytes, root: Path) -> str:
    return "".join(Page(document(text), "a title", str(root)).text())


def page(text: bytes) -> str:
    return "".join(Page(document(text), "a title").text())


def browse(text: bytes, clicks: list[tuple[str, str]], *flags: str) -> list:
    """What the script finds in a browser."""
    return run_in_browser(page(text), SCRIPT.replace("CLICKS", json.dumps(clicks)), "", *flags)


def run_in_browser(whole: str, script: str, address: str, *flags: str) -> list:
    """What a script leaves in a browser that opens a page with this address behind its name."""
    with tempfile.TemporaryDirectory() as folder:
        path = Path(folder) / "page.html"
        path.write_text(whole.replace("</body>", script + "</body>"))
        words = [
            BROWSER,
            "--headless",
            "--no-sandbox",
            "--disable-gpu",
            f"--user-data-dir={folder}/user",
            *flags,
            "--dump-dom",
            path.as_uri() + address,
        ]
        shown = subprocess.run(words, capture_output=True, timeout=300, check=True).stdout.decode()
    found = re.search(r'id="answers"[^>]*>(.*?)</p>', shown, re.S)
    assert found, shown[-2000:]
    return json.loads(unescape(found[1]))


class Text(unittest.TestCase):
    def test_no_outside_parts(self) -> None:
        self.assertNotRegex(page(README_TEXT), r"https?:|src=|<link|@import|url\(")

    def test_faults_lead_to_their_places(self) -> None:
        text = page(README_TEXT)
        self.assertIn('<a href="#fault0">main.c:4:1: BadDirective [when !defined(A)]</a>', text)
        self.assertIn('id="fault0"', text)

    def test_a_variable_with_many_options_has_a_list(self) -> None:
        options = b" ".join(b"%d:%d" % (option, option == 3) for option in range(7))
        text = page(b"c 2 N " + options + b"\ns 0 m.c\nt 2 0:1:1 x\nend\n")
        self.assertIn('<select name="v0"><option value="-1">any</option>', text)
        self.assertNotIn('type="radio"', text)

    def test_what_html_reads_is_escaped(self) -> None:
        text = page(b's 0 <m>.c\nt 1 0:1:1 "</script>\xff<b>"\nend\n')
        self.assertIn("&lt;/script&gt;\ufffd&lt;b&gt;", text)
        self.assertIn("<h2>&lt;m&gt;.c</h2>", text)


class Source(unittest.TestCase):
    """A page of the files as they stand."""

    def page(self) -> str:
        return source_page((DATA / "ring_all.tree").read_bytes(), TOP)

    def test_the_files_stand_as_they_are(self) -> None:
        text = self.page()
        lines = re.findall(r'<div id="L(\d+)"[^>]*><i>\1</i><u>.*?</u>(.*)</div>', text)
        shown = [unescape(re.sub("<[^>]*>", "", line)) for _, line in lines]
        self.assertEqual(shown, (TOP / "examples/ring/ring.c").read_text().splitlines())

    def test_the_gutter_and_links(self) -> None:
        text = self.page()
        self.assertIn('<a href="#F2">#include &quot;ring.h&quot;</a>', text)
        self.assertRegex(
            text, r'<div id="F1L5" class="c\d+"[^>]*><i>5</i><u>defined\(CONFIG_SMP\)</u>'
        )

    def test_files_elsewhere_are_named(self) -> None:
        text = source_page((DATA / "ring_all.tree").read_bytes(), TOP / "examples/ring/include")
        self.assertIn("<summary>Outside (3)</summary>", text)

    def test_copies_have_the_lines_of_their_files(self) -> None:
        name = "/p/out/overlay/0123abcd/usr/include/x.h"
        self.assertEqual(plain_name(name), "/usr/include/x.h")
        self.assertEqual(plain_name("/p/out/overlay/0123abcd/beside/usr/x.h"), "/usr/x.h")
        self.assertEqual(plain_name("/p/overlay/x.h"), "/p/overlay/x.h")

    def test_branches(self) -> None:
        file = SourceFile("m.c", "a\n#if A\nb\n#if B\nc\n#endif\n#else\nd\n#endif\ne\n")
        heads, branches = file.branches()
        self.assertEqual(heads[1:11], [0, 0, 2, 2, 4, 2, 0, 7, 0, 0])
        self.assertEqual({head: one.end for head, one in branches.items()}, {2: 7, 4: 6, 7: 9})
        self.assertEqual([one.earlier for one in branches.values()], [[], [], [2]])

    def test_a_branch_without_tokens(self) -> None:
        text = self.page()
        for line, condition in (
            (5, "CONFIG_RING_DEBUG==2"),
            (7, "CONFIG_RING_DEBUG==1"),
            (9, "CONFIG_RING_DEBUG==0"),
        ):
            self.assertIn(f"<i>{line}</i><u>{condition}</u><code>#define TRACE", text)

    def test_a_branch_that_nothing_takes(self) -> None:
        with tempfile.TemporaryDirectory() as folder:
            Path(folder, "m.c").write_text("#if 0\n#ifdef B\ny\n#endif\n#else\nx\n#endif\n")
            text = source_page(b"s 0 m.c\nt 1 0:6:1 x\nend\n", Path(folder))
        dead = re.findall(r'<div id="L(\d)" class="dead">', text)
        self.assertEqual(dead, ["2", "3", "4"])

    def test_what_heads_ask(self) -> None:
        diagrams = Diagrams()
        diagrams.variables.update({"A": ("undef", "1"), "N": ("1", "2", "16")})
        heads = Heads(diagrams, {"A", "N"})
        text_of = Expressions(diagrams).text
        rows = {
            ("ifdef", " A"): "defined(A)",
            ("ifndef", " A"): "!defined(A)",
            ("if", " N > 1 && !defined A"): "!defined(A) && N!=1",
            ("elif", "(N == 2) * 3 - 1 >= A + 1"): "N==2",
            ("if", " B"): None,
            ("if", " defined(B)"): None,
            ("if", " N % 2 ? A : 0"): "defined(A) && N==1",
            ("if", " N >"): None,
            ("if", " N / A"): None,
            ("if", " N == 020"): "N==16",
        }
        for (word, rest), want in rows.items():
            taken = heads.taken(word, rest)
            self.assertEqual(None if taken is None else text_of(taken), want, rest)


@unittest.skipUnless(BROWSER, "no browser is there: Debian has it in the package chromium")
class Browser(unittest.TestCase):
    def test_a_click_greys_what_is_away(self) -> None:
        found = browse(
            (DATA / "driver.tokens").read_bytes(),
            [("v1", "1"), ("v1", "0"), ("v0", "0"), ("v0", "-1")],
        )
        locked = [
            "spinlock_t lock;",
            "spin_lock(&dev->rings[0].lock);",
            "spin_unlock(&dev->rings[0].lock);",
        ]
        power = [
            "int suspended;",
            "static int suspend(struct device *dev)",
            "{",
            "dev->suspended = 1;",
            "return 0;",
            "}",
            ".suspend = suspend,",
        ]
        self.assertEqual(found[0], [["disable_irq(irq);", "enable_irq(irq);"], "Accepted"])
        self.assertEqual(found[1], [locked, "Accepted"])
        self.assertEqual(sorted(found[2][0]), sorted(locked + power))
        self.assertEqual(found[3][0], locked)
        self.assertEqual(
            found[4:], ["when defined(CONFIG_SMP)", "when defined(CONFIG_PM)", "rgb(255, 255, 255)"]
        )

    def test_the_same_in_the_dark(self) -> None:
        found = browse(
            TREE_TEXT,
            [("v0", "1"), ("v0", "0")],
            "--force-dark-mode",
            "--blink-settings=preferredColorScheme=0",
        )
        self.assertEqual([row[0] for row in found[:2]], [["long"], ["int"]])
        self.assertEqual(found[-1], "rgb(21, 24, 28)")

    def test_a_refused_configuration_is_told(self) -> None:
        found = browse(README_TEXT, [("v0", "-1"), ("v0", "0"), ("v0", "1")])
        verdicts = [row[1] for row in found[:3]]
        self.assertEqual(
            verdicts,
            ["Refused in part", "Refused: main.c:4:1: BadDirective [when !defined(A)]", "Accepted"],
        )

    def test_a_page_of_source(self) -> None:
        whole = source_page((DATA / "ring_all.tree").read_bytes(), TOP)
        found = run_in_browser(whole, SOURCE_SCRIPT, "#L31;CONFIG_SMP=1;CONFIG_RING_ORDER=8")
        fault = "examples/ring/ring.h:7:1: ErrorDirective [when CONFIG_RING_ORDER==2 && defined(CONFIG_SMP)]"
        locks = ["spin_lock(&ring->lock)", "( ( void ) (         &ring->lock ) )", ";"]
        want = {
            "opened": [
                "L31",
                "#L31;CONFIG_SMP=1;CONFIG_RING_ORDER=8",
                "Accepted",
                "expression_statement",
            ],
            "greyed": ["F1L9", "F1L10", "F1L11"],
            "gutter": ["!defined(CONFIG_SMP)", "defined(CONFIG_SMP)"],
            "found": ["3 lines", "F1L6", "2 of 3 lines"],
            "byCondition": "6 lines",
            "clicked": ["#L31;CONFIG_RING_ORDER=8;CONFIG_SMP=undef", ["F1L5", "F1L6", "F1L7"]],
            "line": ["L12", "#L12;CONFIG_RING_ORDER=8;CONFIG_SMP=undef"],
            "fault": ["fault0", f"{fault}: The line #error refuses the file."],
            "folded": ["none", "block"],
            "unfolded": "block",
            "expansion": [[lock, lock != ";"] for lock in locks],
            "closed": "L32",
            "next": "L5",
            "focus": "search",
        }
        self.assertEqual(found, want)

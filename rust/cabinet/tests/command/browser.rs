//! The page of a status in a real browser, where one is installed.

use crate::bench::{data, Bench, SYMBOLS};
use crate::json::{parse, Value};
use std::process::Command;

/// Measures the page that it stands in, and leaves what it found as the document's only text.
const MEASURE: &str = "<script>
const box = e => e.getBoundingClientRect();
const pictures = [...document.querySelectorAll('svg')].map(svg => {
  const frame = box(svg);
  const texts = [...svg.querySelectorAll('text')];
  const outside = texts.filter(t => box(t).width > 0 && (box(t).left < frame.left - 1 ||
    box(t).right > frame.right + 1 || box(t).top < frame.top - 1 || box(t).bottom > frame.bottom + 1));
  return {texts: texts.length, outside: outside.map(t => t.textContent), width: frame.width};
});
const picture = document.querySelector('svg');
const fills = name => [...picture.querySelectorAll('rect.' + name)].map(r => getComputedStyle(r).fill);
const lines = [...document.querySelectorAll('pre')];
const report = {pictures, live: fills('live'), absent: fills('absent'), bad: fills('bad'),
  wide: document.documentElement.scrollWidth > innerWidth, command: lines.map(p => p.textContent),
  seen: lines.map(p => box(p).height > 20 && box(p).top < innerHeight),
  verdict: getComputedStyle(document.querySelector('.verdict')).backgroundColor,
  others: performance.getEntriesByType('resource').length};
document.documentElement.textContent = JSON.stringify(report);
</script>";

/// The browser, if there is one.
fn browser() -> Option<&'static str> {
    let names = ["chromium", "chromium-browser", "google-chrome"];
    names.into_iter().find(|name| {
        let version = Command::new(name).arg("--version").output();
        version.is_ok_and(|output| output.status.success())
    })
}

/// What the browser makes of a page at a width.
fn seen(browser: &str, bench: &Bench, page: &str, width: u32) -> Value {
    let profile = bench.path("profile");
    let output = Command::new(browser)
        .args(["--headless", "--no-sandbox", "--disable-gpu", "--dump-dom"])
        .args(["--hide-scrollbars", "--disable-dev-shm-usage"])
        .arg(format!("--user-data-dir={}", profile.display()))
        .arg(format!("--window-size={width},900"))
        .arg(format!("file://{}", bench.path(page).display()))
        .output()
        .expect("the browser can be run");
    let text = String::from_utf8(output.stdout).expect("text");
    let start = text
        .find('{')
        .unwrap_or_else(|| panic!("no report: {text}"));
    let end = text.rfind('}').expect("an end");
    let text = text[start..=end]
        .replace("&gt;", ">")
        .replace("&lt;", "<")
        .replace("&amp;", "&");
    parse(&text)
}

#[test]
fn the_page_in_a_browser() {
    let Some(browser) = browser() else {
        println!("not run: there is no chromium here");
        return;
    };
    let bench = Bench::new();
    bench.write("data", &data(100_000));
    bench.done("store 10 3 24 9 --volume 7 data c");
    bench.done("scrub c");
    bench.remove("c/tray-13.img");
    bench.flip("c/tray-20.img", SYMBOLS + 3);
    bench.done("status c --html page.html");
    let page = String::from_utf8(bench.read("page.html")).expect("text");
    // Nothing but itself: the one address is the name of SVG, which is not fetched.
    let addresses = page.matches("://").count();
    assert_eq!(
        addresses,
        page.matches("http://www.w3.org/2000/svg").count()
    );
    assert!(
        !page.contains("<script") && !page.contains("src="),
        "{page}"
    );
    bench.write(
        "measured.html",
        page.replace("</body>", &format!("{MEASURE}</body>"))
            .as_bytes(),
    );
    for width in [500, 1000] {
        let seen = seen(browser, &bench, "measured.html", width);
        assert_eq!(seen.at("wide"), &Value::Flag(false), "{width}: {seen:?}");
        assert_eq!(seen.at("others").number(), 0.0);
        assert_eq!(seen.at("command").list()[0].text(), "cabinet fix c");
        assert_eq!(seen.at("seen").list(), [Value::Flag(true)]);
        assert_eq!(seen.at("verdict").text(), "rgb(251, 236, 203)");
        // The legend has one more of each.
        assert_eq!(seen.at("live").list().len(), 29);
        assert!(seen
            .at("live")
            .list()
            .iter()
            .all(|fill| fill.text() == "rgb(29, 138, 85)"));
        assert_eq!(seen.at("bad").list()[1].text(), "rgb(192, 57, 43)");
        assert_eq!(seen.at("absent").list().len(), 2);
        let pictures = seen.at("pictures").list();
        assert_eq!(pictures.len(), 2);
        for picture in pictures {
            assert!(picture.at("texts").number() > 40.0);
            assert_eq!(picture.at("outside").list(), [], "at {width}");
            assert!(picture.at("width").number() > 400.0);
        }
    }
}

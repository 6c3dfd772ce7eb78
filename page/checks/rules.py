"""What holds for the page as a whole: one file, no request, a policy that refuses them, a clean console, old browsers."""
import re


def check(page):
    page.open()
    text = page.look.read_text()
    page.equal("addresses in the file", re.findall(r"(?:src|href)\s*=\s*[\"'](?!data:,)[^\"']*", text), [])
    page.equal("requests beside the page", page.run("return performance.getEntriesByType('resource').map((request) => request.name)"), [])
    # Chromium's advice on willReadFrequently is about the pixels that this check itself reads.
    console = [line["message"] for line in page.driver.get_log("browser") if "willReadFrequently" not in line["message"]]
    page.equal("messages of the console", console, [])
    check_policy(page)
    check_old_browser(page)


def check_policy(page):
    refused = page.driver.execute_async_script("""
        const done = arguments[0];
        addEventListener("securitypolicyviolation", (event) => done(event.effectiveDirective));
        fetch("http://127.0.0.1:9/").catch(() => setTimeout(() => done("none"), 500));""")
    page.equal("a request that the policy refuses", refused, "connect-src")
    refused = page.driver.execute_async_script("""
        const done = arguments[0];
        addEventListener("securitypolicyviolation", (event) => done(event.effectiveDirective));
        const script = document.createElement("script");
        script.textContent = "document.body.dataset.other = 'yes'";
        document.body.append(script);
        setTimeout(() => done("none"), 500);""")
    page.equal("another script that the policy refuses", [refused, page.run("return document.body.dataset.other ?? null")], ["script-src-elem", None])


def check_old_browser(page):
    fail = "WebAssembly.instantiate = () => Promise.reject(new Error('no 64-bit memory'))"
    added = page.driver.execute_cdp_cmd("Page.addScriptToEvaluateOnNewDocument", {"source": fail})
    page.driver.refresh()
    page.wait_for("return document.getElementById('problem').textContent !== ''")
    page.holds("words for an old browser", page.text("#problem").startswith("This browser can\u2019t run the library"))
    page.driver.execute_cdp_cmd("Page.removeScriptToEvaluateOnNewDocument", {"identifier": added["identifier"]})
    page.open()

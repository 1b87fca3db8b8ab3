#!/usr/bin/env python3
"""Opens a page in Chromium, takes its sample disk, and saves the file that is linked of it.
Usage: use_page.py PAGE FILE"""
import pathlib
import sys

sys.dont_write_bytecode = True
import browsers

CAN_CLICK = ("document.documentElement.dataset.ready === 'yes' && "
             "document.querySelector('{0}').checkVisibility() && "
             "!document.querySelector('{0}').disabled")


def main(page, file):
    browser = browsers.opened("chromium")
    try:
        browser.go(pathlib.Path(page).resolve().as_uri())
        for selector in ("#sample", "#save"):
            if not browser.until(CAN_CLICK.format(selector)):
                print(f"there is no button {selector}")
                return 1
            browser.click(selector)
        saved = browser.took("HOST.LINKED.CODE")
    finally:
        browser.close()
    pathlib.Path(file).write_bytes(saved or b"")
    return 0


sys.exit(main(*sys.argv[1:]))

"""Makes docs/workbench.png anew: `packaging/web/tests/picture.py WORKBENCH.html`, where Chromium is."""
import sys

from opened import TOP, Workbench

WIDTH, HEIGHT = 1400, 1080


def main():
    with Workbench(sys.argv[1]) as page:
        page.value('scrollTo(0, 0)')
        page.picture(TOP / 'docs/workbench.png', WIDTH, HEIGHT)


if __name__ == '__main__':
    main()

"""A window of a toolkit that copies with Ctrl and C, and pastes with Ctrl and V.

    window.py TOOLKIT

TOOLKIT is gtk3, gtk4 or qt. A line says each text that is copied, `TOOLKIT 1`, `TOOLKIT 2` and so
on, and each that is pasted."""

import itertools
import sys

TOOLKIT = sys.argv[1]
NUMBERS = itertools.count(1)


def say(*words):
    print(*words, flush=True)


def next_text():
    text = f"{TOOLKIT} {next(NUMBERS)}"
    say("copied", text)
    return text


def gtk3():
    import gi
    gi.require_version("Gdk", "3.0")
    gi.require_version("Gtk", "3.0")
    from gi.repository import Gdk, Gtk
    clipboard = Gtk.Clipboard.get(Gdk.SELECTION_CLIPBOARD)

    def on_key(_window, event):
        if not event.state & Gdk.ModifierType.CONTROL_MASK:
            return
        if event.keyval == Gdk.KEY_c:
            clipboard.set_text(next_text(), -1)
        elif event.keyval == Gdk.KEY_v:
            clipboard.request_text(lambda _clipboard, text: say("pasted", text))

    window = Gtk.Window(title=TOOLKIT)
    window.connect("key-press-event", on_key)
    window.connect("destroy", Gtk.main_quit)
    window.show_all()
    Gtk.main()


def gtk4():
    import gi
    gi.require_version("Gdk", "4.0")
    gi.require_version("Gtk", "4.0")
    from gi.repository import Gdk, GLib, Gtk
    loop = GLib.MainLoop()

    def on_text(clipboard, result):
        try:
            say("pasted", clipboard.read_text_finish(result))
        except GLib.Error as why:
            say("error", why)

    def on_key(controller, key, _code, state):
        if not state & Gdk.ModifierType.CONTROL_MASK:
            return
        clipboard = controller.get_widget().get_clipboard()
        if key == Gdk.KEY_c:
            clipboard.set_content(Gdk.ContentProvider.new_for_value(next_text()))
        elif key == Gdk.KEY_v:
            clipboard.read_text_async(None, on_text)

    def on_close(_window):
        loop.quit()

    window = Gtk.Window(title=TOOLKIT)
    keys = Gtk.EventControllerKey()
    keys.connect("key-pressed", on_key)
    window.add_controller(keys)
    window.connect("close-request", on_close)
    window.present()
    loop.run()


def qt():
    from PyQt5.QtCore import Qt
    from PyQt5.QtWidgets import QApplication, QWidget

    class Window(QWidget):
        def keyPressEvent(self, event):
            if not event.modifiers() & Qt.ControlModifier:
                return
            if event.key() == Qt.Key_C:
                QApplication.clipboard().setText(next_text())
            elif event.key() == Qt.Key_V:
                say("pasted", QApplication.clipboard().text())

    program = QApplication(sys.argv[:1])
    window = Window()
    window.setWindowTitle(TOOLKIT)
    window.resize(200, 200)
    window.show()
    program.exec_()


{"gtk3": gtk3, "gtk4": gtk4, "qt": qt}[TOOLKIT]()

"""Programs that another one starts: how each of them ends is known to it."""
import signal
import threading


def know_their_ends():
    """Has this process know how each program ends that it starts. If its caller ignores SIGCHLD, each that fails seems to end well."""
    if threading.current_thread() is threading.main_thread():  # another thread can't, and pytest gives it no test
        signal.signal(signal.SIGCHLD, signal.SIG_DFL)

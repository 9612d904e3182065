"""Ports of 127.0.0.1 that nobody has, for tries that serve something. (tools/try/serving and tools/try/machines have their own:
many of their tries go at once, and each may be given only what no other one is.)"""
import contextlib
import socket


def free_ports(count):
    """So many ports, each another one."""
    with contextlib.ExitStack() as held:
        sockets = [held.enter_context(socket.socket()) for _ in range(count)]
        for it in sockets:
            it.bind(('127.0.0.1', 0))
        return [it.getsockname()[1] for it in sockets]


def free_port():
    return free_ports(1)[0]

"""Prints a session in which 4,096 endpoints are held, which are the maximum (RFC 3263, 4.3)."""

MOST = 4_096
RELEASED = MOST - 1


def endpoint(number: int) -> str:
    return f"198.18.{number // 256}.{number % 256} 5060"


def find(number: int, is_held: bool) -> str:
    found = "none AllHeld" if is_held else f"target 1 tcp {endpoint(number)}\nok find 1"
    return f"> find sip:{endpoint(number).replace(' ', ':')};transport=tcp\n{found}"


print("# The hold of endpoint N ends at N + 1 ms. At 4,000 ms 96 are held, and 95 after a release.")
print("$ siploc run")
for number in range(MOST):
    print(f"> hold tcp {endpoint(number)} {number + 1}\nok hold")
print(f"> hold tcp {endpoint(MOST)} 1\nerr O4")
print("> clock 4000\nok clock 4000")
for number in range(3_999, MOST):
    print(find(number, is_held=number >= 4_000))
print(f"> release tcp {endpoint(RELEASED)}\nok release")
print(find(RELEASED, is_held=False))

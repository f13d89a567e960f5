"""Points and directions in the plane; y runs downwards, as in a picture."""
import math


def plus(p, q, k=1.0):
    return p[0] + k * q[0], p[1] + k * q[1]


def minus(p, q):
    return p[0] - q[0], p[1] - q[1]


def dot(p, q):
    return p[0] * q[0] + p[1] * q[1]


def unit(p):
    size = math.hypot(*p)
    return p[0] / size, p[1] / size


def turned(p, angle):
    c, s = math.cos(angle), math.sin(angle)
    return c * p[0] - s * p[1], s * p[0] + c * p[1]


def outward(p, q):
    """The unit normal of a side from p to q that leads out of its polygon."""
    x, y = unit(minus(q, p))
    return -y, x

"""Takes the place of a branch driver's library: one crate with a converter, which calls twice."""
demands = 2

def branch_demand():
    return demands > 0

def graded_l():
    global demands
    demands -= 1
    return 0x000004

def cycle(c, n, a, f, data):
    return 1, 1, 0x000abc, 0

def take_lockout(c):
    return 0

def release_lockout(c):
    print("lockout of crate", c, "released")

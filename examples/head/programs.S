# The window that the kernel lends to the stub: one page with the code of both processes, the laser's power limit, and
# synthetic scan points. A process may read and execute it, not write it.
#
# Two processes measure one side of a log each, with the same code. A scan has sixteen points, diameters in mm. Wet bark
# in the sun gives points that are far too large, glare, which the routine `glare` has to throw out.

    .option norelax                 # addresses stay as they are written here; session.py knows some
    .equ report, 1                  # calls of the kernel, in a7
    .equ rest, 2
    .equ laser, 3

    .section .window, "ax"
    .globl window, left, right
window:
left:                               # process 5 begins here
    la s0, left_points
    j scans
    .org 0x10
right:                              # process 7 begins here
    la s0, right_points
    .org 0x18

scans:
    la a0, power_limit              # the laser shines with its limit, and never more
    lw a0, 0(a0)
    li a7, laser
    ecall
    mv a0, s0
    li a1, 16
    jal glare
    li a7, report                   # a0: the diameter
    ecall
    li a0, 20                       # in ms
    li a7, rest
    ecall
    j scans

# a0: the points of a scan, a1: how many. Answers the greatest that is no glare.
    .org 0x60
glare:
    li a2, 0                        # the greatest so far
    lhu a5, 0(a0)                   # the last point that was kept
point:
    lhu a3, 0(a0)
rule:                               # at 0x8010006a, as session.py knows
    addi a4, zero, 520              # Points above a4 are glare: 520 mm. Four bytes, 13 07 80 20.
                                    # The patch: addi a4, a5, 40, 40 mm above the last kept; 13 87 87 02.
    bltu a4, a3, next
    mv a5, a3
    bgeu a2, a3, next
    mv a2, a3
next:
    addi a0, a0, 2
    addi a1, a1, -1
    bnez a1, point
    mv a0, a2
    ret

    .org 0xf00
power_limit:                        # in mW. The stub protects this word: no request changes it.
    .word 45

# The left side is 412 mm. 505 and 731 are glare; the rule of 520 mm lets 505 through.
    .org 0xf10
left_points:
    .half 398, 401, 405, 408, 410, 505, 411, 412, 409, 731, 407, 404, 402, 399, 397, 396
right_points:
    .half 380, 384, 387, 391, 394, 396, 640, 398, 397, 395, 393, 390, 388, 385, 383, 381
    .org 0x1000

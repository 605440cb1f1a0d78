/*
 * unftp_control 0.4.0: the program control_demo, for Linux on armv8-a.
 * This file is generated: generated/README.md says how.
 *
 * made by: tools/generated --write
 * toolchain: rattle-kit-13f logic dac8208d650f15bf
 * sources: sha256 5afc2ddb492e0026433c6812e78991e1db29763fe67e7c12bf9a4e0684dd10c8
 */
	.section	".text.std_io::io::error::Error::from_raw_os_error","ax",@progbits
	.p2align	2
	.type	"std_io::io::error::Error::from_raw_os_error",@function
"std_io::io::error::Error::from_raw_os_error":
	tbnz	w1, #31, .LBB0_4
	sub	w8, w1, #1
	cmp	w8, #121
	b.hi	.LBB0_4
	adrp	x9, .LJTI0_0
	add	x9, x9, :lo12:.LJTI0_0
	adr	x10, .LBB0_3
	ldrb	w11, [x9, x8]
	add	x10, x10, x11, lsl #2
	mov	w8, #1
	br	x10
.LBB0_3:
	mov	w8, #36
	b	.LBB0_5
.LBB0_4:
	mov	w8, #41
.LBB0_5:
	movi	v0.2d, #0000000000000000
	strb	wzr, [x0]
	strb	w8, [x0, #1]
	strh	wzr, [x0, #2]
	str	w1, [x0, #4]
	stur	q0, [x0, #8]
	stur	q0, [x0, #24]
	stur	q0, [x0, #40]
	stur	q0, [x0, #56]
	stur	q0, [x0, #72]
	ret
.LBB0_6:
	mov	w8, #4
	b	.LBB0_5
.LBB0_7:
	mov	w8, #7
	b	.LBB0_5
.LBB0_8:
	mov	w8, #26
	b	.LBB0_5
.LBB0_9:
	mov	w8, #39
	b	.LBB0_5
.LBB0_10:
	mov	w8, #9
	b	.LBB0_5
.LBB0_11:
	mov	w8, #8
	b	.LBB0_5
.LBB0_12:
	mov	w8, #30
	b	.LBB0_5
.LBB0_13:
	mov	w8, #25
	b	.LBB0_5
.LBB0_14:
	mov	w8, #32
	b	.LBB0_5
.LBB0_15:
	mov	w8, #33
	b	.LBB0_5
.LBB0_16:
	mov	w8, #22
	b	.LBB0_5
.LBB0_17:
	mov	w8, #31
	b	.LBB0_5
.LBB0_18:
	mov	w8, #29
	b	.LBB0_5
.LBB0_19:
	mov	w8, #18
	b	.LBB0_5
.LBB0_20:
	mov	w8, #10
	b	.LBB0_5
.LBB0_21:
	mov	w8, #28
	b	.LBB0_5
.LBB0_22:
	mov	w8, #14
	b	.LBB0_5
.LBB0_23:
	mov	w8, #12
	b	.LBB0_5
.LBB0_24:
	mov	w8, #5
	b	.LBB0_5
.LBB0_25:
	mov	w8, #3
	b	.LBB0_5
.LBB0_26:
	mov	w8, wzr
	b	.LBB0_5
.LBB0_27:
	mov	w8, #13
	b	.LBB0_5
.LBB0_28:
	mov	w8, #38
	b	.LBB0_5
.LBB0_29:
	mov	w8, #11
	b	.LBB0_5
.LBB0_30:
	mov	w8, #35
	b	.LBB0_5
.LBB0_31:
	mov	w8, #34
	b	.LBB0_5
.LBB0_32:
	mov	w8, #20
	b	.LBB0_5
.LBB0_33:
	mov	w8, #15
	b	.LBB0_5
.LBB0_34:
	mov	w8, #19
	b	.LBB0_5
.LBB0_35:
	mov	w8, #16
	b	.LBB0_5
.LBB0_36:
	mov	w8, #6
	b	.LBB0_5
.LBB0_37:
	mov	w8, #27
	b	.LBB0_5
.LBB0_38:
	mov	w8, #24
	b	.LBB0_5
.LBB0_39:
	mov	w8, #2
	b	.LBB0_5
.LBB0_40:
	mov	w8, #17
	b	.LBB0_5
.Lfunc_end0:
	.size	"std_io::io::error::Error::from_raw_os_error", .Lfunc_end0-"std_io::io::error::Error::from_raw_os_error"
	.section	".rodata.std_io::io::error::Error::from_raw_os_error","a",@progbits
.LJTI0_0:
	.byte	(.LBB0_5-.LBB0_3)>>2
	.byte	(.LBB0_26-.LBB0_3)>>2
	.byte	(.LBB0_4-.LBB0_3)>>2
	.byte	(.LBB0_30-.LBB0_3)>>2
	.byte	(.LBB0_4-.LBB0_3)>>2
	.byte	(.LBB0_4-.LBB0_3)>>2
	.byte	(.LBB0_31-.LBB0_3)>>2
	.byte	(.LBB0_4-.LBB0_3)>>2
	.byte	(.LBB0_4-.LBB0_3)>>2
	.byte	(.LBB0_4-.LBB0_3)>>2
	.byte	(.LBB0_27-.LBB0_3)>>2
	.byte	(.LBB0_28-.LBB0_3)>>2
	.byte	(.LBB0_5-.LBB0_3)>>2
	.byte	(.LBB0_4-.LBB0_3)>>2
	.byte	(.LBB0_4-.LBB0_3)>>2
	.byte	(.LBB0_21-.LBB0_3)>>2
	.byte	(.LBB0_23-.LBB0_3)>>2
	.byte	(.LBB0_17-.LBB0_3)>>2
	.byte	(.LBB0_4-.LBB0_3)>>2
	.byte	(.LBB0_22-.LBB0_3)>>2
	.byte	(.LBB0_33-.LBB0_3)>>2
	.byte	(.LBB0_32-.LBB0_3)>>2
	.byte	(.LBB0_4-.LBB0_3)>>2
	.byte	(.LBB0_4-.LBB0_3)>>2
	.byte	(.LBB0_4-.LBB0_3)>>2
	.byte	(.LBB0_18-.LBB0_3)>>2
	.byte	(.LBB0_37-.LBB0_3)>>2
	.byte	(.LBB0_38-.LBB0_3)>>2
	.byte	(.LBB0_13-.LBB0_3)>>2
	.byte	(.LBB0_40-.LBB0_3)>>2
	.byte	(.LBB0_14-.LBB0_3)>>2
	.byte	(.LBB0_29-.LBB0_3)>>2
	.byte	(.LBB0_4-.LBB0_3)>>2
	.byte	(.LBB0_4-.LBB0_3)>>2
	.byte	(.LBB0_12-.LBB0_3)>>2
	.byte	(.LBB0_15-.LBB0_3)>>2
	.byte	(.LBB0_4-.LBB0_3)>>2
	.byte	(.LBB0_3-.LBB0_3)>>2
	.byte	(.LBB0_35-.LBB0_3)>>2
	.byte	(.LBB0_19-.LBB0_3)>>2
	.byte	(.LBB0_4-.LBB0_3)>>2
	.byte	(.LBB0_4-.LBB0_3)>>2
	.byte	(.LBB0_4-.LBB0_3)>>2
	.byte	(.LBB0_4-.LBB0_3)>>2
	.byte	(.LBB0_4-.LBB0_3)>>2
	.byte	(.LBB0_4-.LBB0_3)>>2
	.byte	(.LBB0_4-.LBB0_3)>>2
	.byte	(.LBB0_4-.LBB0_3)>>2
	.byte	(.LBB0_4-.LBB0_3)>>2
	.byte	(.LBB0_4-.LBB0_3)>>2
	.byte	(.LBB0_4-.LBB0_3)>>2
	.byte	(.LBB0_4-.LBB0_3)>>2
	.byte	(.LBB0_4-.LBB0_3)>>2
	.byte	(.LBB0_4-.LBB0_3)>>2
	.byte	(.LBB0_4-.LBB0_3)>>2
	.byte	(.LBB0_4-.LBB0_3)>>2
	.byte	(.LBB0_4-.LBB0_3)>>2
	.byte	(.LBB0_4-.LBB0_3)>>2
	.byte	(.LBB0_4-.LBB0_3)>>2
	.byte	(.LBB0_4-.LBB0_3)>>2
	.byte	(.LBB0_4-.LBB0_3)>>2
	.byte	(.LBB0_4-.LBB0_3)>>2
	.byte	(.LBB0_4-.LBB0_3)>>2
	.byte	(.LBB0_4-.LBB0_3)>>2
	.byte	(.LBB0_4-.LBB0_3)>>2
	.byte	(.LBB0_4-.LBB0_3)>>2
	.byte	(.LBB0_4-.LBB0_3)>>2
	.byte	(.LBB0_4-.LBB0_3)>>2
	.byte	(.LBB0_4-.LBB0_3)>>2
	.byte	(.LBB0_4-.LBB0_3)>>2
	.byte	(.LBB0_4-.LBB0_3)>>2
	.byte	(.LBB0_4-.LBB0_3)>>2
	.byte	(.LBB0_4-.LBB0_3)>>2
	.byte	(.LBB0_4-.LBB0_3)>>2
	.byte	(.LBB0_4-.LBB0_3)>>2
	.byte	(.LBB0_4-.LBB0_3)>>2
	.byte	(.LBB0_4-.LBB0_3)>>2
	.byte	(.LBB0_4-.LBB0_3)>>2
	.byte	(.LBB0_4-.LBB0_3)>>2
	.byte	(.LBB0_4-.LBB0_3)>>2
	.byte	(.LBB0_4-.LBB0_3)>>2
	.byte	(.LBB0_4-.LBB0_3)>>2
	.byte	(.LBB0_4-.LBB0_3)>>2
	.byte	(.LBB0_4-.LBB0_3)>>2
	.byte	(.LBB0_4-.LBB0_3)>>2
	.byte	(.LBB0_4-.LBB0_3)>>2
	.byte	(.LBB0_4-.LBB0_3)>>2
	.byte	(.LBB0_4-.LBB0_3)>>2
	.byte	(.LBB0_4-.LBB0_3)>>2
	.byte	(.LBB0_4-.LBB0_3)>>2
	.byte	(.LBB0_4-.LBB0_3)>>2
	.byte	(.LBB0_4-.LBB0_3)>>2
	.byte	(.LBB0_4-.LBB0_3)>>2
	.byte	(.LBB0_4-.LBB0_3)>>2
	.byte	(.LBB0_3-.LBB0_3)>>2
	.byte	(.LBB0_4-.LBB0_3)>>2
	.byte	(.LBB0_4-.LBB0_3)>>2
	.byte	(.LBB0_11-.LBB0_3)>>2
	.byte	(.LBB0_10-.LBB0_3)>>2
	.byte	(.LBB0_20-.LBB0_3)>>2
	.byte	(.LBB0_24-.LBB0_3)>>2
	.byte	(.LBB0_4-.LBB0_3)>>2
	.byte	(.LBB0_36-.LBB0_3)>>2
	.byte	(.LBB0_25-.LBB0_3)>>2
	.byte	(.LBB0_4-.LBB0_3)>>2
	.byte	(.LBB0_4-.LBB0_3)>>2
	.byte	(.LBB0_7-.LBB0_3)>>2
	.byte	(.LBB0_4-.LBB0_3)>>2
	.byte	(.LBB0_4-.LBB0_3)>>2
	.byte	(.LBB0_16-.LBB0_3)>>2
	.byte	(.LBB0_39-.LBB0_3)>>2
	.byte	(.LBB0_4-.LBB0_3)>>2
	.byte	(.LBB0_6-.LBB0_3)>>2
	.byte	(.LBB0_4-.LBB0_3)>>2
	.byte	(.LBB0_9-.LBB0_3)>>2
	.byte	(.LBB0_34-.LBB0_3)>>2
	.byte	(.LBB0_4-.LBB0_3)>>2
	.byte	(.LBB0_4-.LBB0_3)>>2
	.byte	(.LBB0_4-.LBB0_3)>>2
	.byte	(.LBB0_4-.LBB0_3)>>2
	.byte	(.LBB0_4-.LBB0_3)>>2
	.byte	(.LBB0_8-.LBB0_3)>>2

	.section	".text.unlikely.std_alloc::vec::Vec::grow_amortized::<#0664299079b05c43>","ax",@progbits
	.p2align	2
	.type	"std_alloc::vec::Vec::grow_amortized::<#0664299079b05c43>",@function
"std_alloc::vec::Vec::grow_amortized::<#0664299079b05c43>":
	ldr	x8, [x0, #8]
	cmn	x8, x1
	b.lo	.LBB1_2
	mov	w0, wzr
	ret
.LBB1_2:
	stp	x29, x30, [sp, #-32]!
	ldr	x10, [x0, #16]
	add	x9, x8, x1
	mov	w11, #8
	cmp	x9, #8
	stp	x20, x19, [sp, #16]
	mov	x29, sp
	lsl	x12, x10, #1
	csel	x11, x9, x11, hi
	lsr	x13, x10, #62
	cmp	x11, x12
	csel	x9, x11, x12, hi
	cmp	x13, #0
	csel	x19, x9, x11, eq
	tbnz	x19, #63, .LBB1_7
	cbz	x10, .LBB1_6
	mov	x20, x0
	ldr	x0, [x0]
	mov	x1, x8
	mov	x2, x19
	mov	w3, #1
	bl	rattle_realloc
	tbz	w0, #0, .LBB1_7
.LBB1_5:
	mov	w0, #1
	str	x1, [x20]
	str	x19, [x20, #16]
	ldp	x20, x19, [sp, #16]
	ldp	x29, x30, [sp], #32
	ret
.LBB1_6:
	mov	x20, x0
	mov	x0, x9
	mov	w1, #1
	bl	rattle_alloc
	tbnz	w0, #0, .LBB1_5
.LBB1_7:
	mov	w0, wzr
	ldp	x20, x19, [sp, #16]
	ldp	x29, x30, [sp], #32
	ret
.Lfunc_end1:
	.size	"std_alloc::vec::Vec::grow_amortized::<#0664299079b05c43>", .Lfunc_end1-"std_alloc::vec::Vec::grow_amortized::<#0664299079b05c43>"

	.section	.rodata.cst16,"aM",@progbits,16
	.p2align	4, 0x0
.LCPI2_0:
	.byte	1
	.byte	2
	.byte	4
	.byte	8
	.byte	16
	.byte	32
	.byte	64
	.byte	128
	.byte	1
	.byte	2
	.byte	4
	.byte	8
	.byte	16
	.byte	32
	.byte	64
	.byte	128
.LCPI2_4:
	.word	16
	.word	24
	.word	8
	.word	0
.LCPI2_5:
	.xword	2
	.xword	0
.LCPI2_6:
	.byte	85
	.byte	110
	.byte	107
	.byte	110
	.byte	111
	.byte	119
	.byte	110
	.byte	32
	.byte	99
	.byte	111
	.byte	109
	.byte	109
	.byte	97
	.byte	110
	.byte	100
	.byte	58
.LCPI2_12:
	.byte	80
	.byte	111
	.byte	119
	.byte	101
	.byte	114
	.byte	101
	.byte	100
	.byte	32
	.byte	98
	.byte	121
	.byte	32
	.byte	108
	.byte	105
	.byte	98
	.byte	117
	.byte	110
.LCPI2_14:
	.byte	86
	.byte	105
	.byte	101
	.byte	119
	.byte	32
	.byte	116
	.byte	104
	.byte	101
	.byte	32
	.byte	100
	.byte	111
	.byte	99
	.byte	115
	.byte	32
	.byte	97
	.byte	116
.LCPI2_15:
	.byte	58
	.byte	32
	.byte	104
	.byte	116
	.byte	116
	.byte	112
	.byte	115
	.byte	58
	.byte	47
	.byte	47
	.byte	117
	.byte	110
	.byte	102
	.byte	116
	.byte	112
	.byte	46
.LCPI2_16:
	.xword	0
	.xword	8
.LCPI2_17:
	.byte	69
	.byte	120
	.byte	116
	.byte	101
	.byte	110
	.byte	115
	.byte	105
	.byte	111
	.byte	110
	.byte	115
	.byte	32
	.byte	115
	.byte	117
	.byte	112
	.byte	112
	.byte	111
.LCPI2_19:
	.byte	84
	.byte	76
	.byte	83
	.byte	47
	.byte	83
	.byte	83
	.byte	76
	.byte	32
	.byte	110
	.byte	111
	.byte	116
	.byte	32
	.byte	99
	.byte	111
	.byte	110
	.byte	102
	.section	.rodata.cst8,"aM",@progbits,8
	.p2align	3, 0x0
.LCPI2_1:
	.byte	1
	.byte	2
	.byte	4
	.byte	8
	.byte	16
	.byte	32
	.byte	64
	.byte	128
.LCPI2_2:
	.hword	1
	.hword	2
	.hword	4
	.hword	8
.LCPI2_3:
	.hword	32
	.hword	32
	.hword	0
	.hword	0
.LCPI2_7:
	.byte	78
	.byte	111
	.byte	116
	.byte	32
	.byte	105
	.byte	109
	.byte	112
	.byte	108
.LCPI2_8:
	.byte	101
	.byte	109
	.byte	101
	.byte	110
	.zero	1
	.zero	1
	.zero	1
	.zero	1
.LCPI2_9:
	.byte	110
	.byte	32
	.byte	85
	.byte	84
	.byte	70
	.byte	45
	.byte	56
	.byte	32
.LCPI2_10:
	.byte	56
	.byte	32
	.byte	109
	.byte	111
	.byte	100
	.byte	101
	.byte	32
	.byte	110
.LCPI2_11:
	.byte	72
	.byte	101
	.byte	108
	.byte	112
	.zero	1
	.zero	1
	.zero	1
	.zero	1
.LCPI2_13:
	.byte	102
	.byte	116
	.byte	112
	.byte	58
	.byte	32
	.byte	48
	.byte	46
	.byte	50
.LCPI2_18:
	.byte	114
	.byte	116
	.byte	101
	.byte	100
	.zero	1
	.zero	1
	.zero	1
	.zero	1
.LCPI2_20:
	.byte	105
	.byte	103
	.byte	117
	.byte	114
	.zero	1
	.zero	1
	.zero	1
	.zero	1
	.section	".text.unftp_control_serve::engine::answer_lines::<#2e66f6333061c70c>","ax",@progbits
	.p2align	2
	.type	"unftp_control_serve::engine::answer_lines::<#2e66f6333061c70c>",@function
"unftp_control_serve::engine::answer_lines::<#2e66f6333061c70c>":
	stp	x29, x30, [sp, #-96]!
	stp	x28, x27, [sp, #16]
	mov	x29, sp
	stp	x26, x25, [sp, #32]
	stp	x24, x23, [sp, #48]
	stp	x22, x21, [sp, #64]
	stp	x20, x19, [sp, #80]
	sub	sp, sp, #1520
	movi	v0.2d, #0000000000000000
	add	x8, sp, #1248
	mov	x28, x3
	mov	x21, x2
	mov	x26, x1
	orr	x8, x8, #0x1
	str	xzr, [sp]
	str	xzr, [sp, #272]
	stp	q0, q0, [sp, #96]
	stp	q0, q0, [sp, #128]
	stp	q0, q0, [sp, #208]
	stp	q0, q0, [sp, #240]
	str	q0, [sp, #192]
	str	q0, [sp, #160]
	stp	x0, x8, [sp]
	str	xzr, [sp, #176]
	stp	x1, x3, [sp, #48]
.LBB2_1:
	ldurb	w8, [x26, #72]
	stur	xzr, [x26, #88]
	cmp	w8, #1
	b.eq	.LBB2_11
	cbnz	w8, .LBB2_21
	ldp	x14, x15, [x26]
	ldr	x8, [x26, #64]
	cbz	x15, .LBB2_64
	mov	x12, xzr
.LBB2_5:
	rbit	x9, x15
	ldrb	w13, [x26, #32]
	clz	x9, x9
	add	x10, x9, #1
	add	x9, x9, x12
	sub	x11, x14, x10
	lsr	x10, x15, x10
	stp	x11, x10, [x26]
	tbnz	w13, #0, .LBB2_8
	ldrb	w10, [x26, #16]
	cmp	w10, #1
	b.ne	.LBB2_75
	ldr	x10, [x26, #24]
	cmp	x10, x9
	b.hi	.LBB2_75
.LBB2_8:
	adds	x9, x9, #1
	strb	wzr, [x26, #32]
	b.hs	.LBB2_10
	ldr	x10, [x26, #96]
	add	x8, x8, x9
	str	x8, [x26, #64]
	adds	x10, x9, x10
	csinv	x10, x10, xzr, lo
	str	x10, [x26, #96]
.LBB2_10:
	adrp	x9, .LCPI2_5
	str	xzr, [sp, #72]
	mov	x15, xzr
	ldr	q0, [x9, :lo12:.LCPI2_5]
	mov	x22, xzr
	mov	x13, xzr
	mov	x14, xzr
	mov	x19, xzr
	mov	w8, wzr
	stur	q0, [x26, #72]
	mov	w11, #1
	mov	w25, #11
	ldurb	w9, [x26, #72]
	cbnz	w9, .LBB2_22
	b	.LBB2_25
.LBB2_11:
	ldr	x19, [x26, #80]
.LBB2_12:
	movi	v0.2d, #0000000000000000
	ldr	x8, [x26, #40]
	ldr	x9, [x26, #64]
	add	x10, sp, #480
	add	x28, sp, #480
	subs	x1, x19, #4
	add	x23, x8, x9
	str	xzr, [sp, #1296]
	str	wzr, [sp, #480]
	str	q0, [sp, #1248]
	str	q0, [sp, #1264]
	str	q0, [sp, #1280]
	stur	wzr, [x10, #3]
	stur	wzr, [x10, #99]
	str	wzr, [sp, #576]
	b.hi	.LBB2_37
.LBB2_13:
	mov	x0, x23
	mov	x1, x19
	bl	"unftp_control_codecs::line_parser::parser::any_verb_len"
	mov	x25, x0
.LBB2_14:
	add	x8, x25, #1
	cmp	x19, x25
	sub	x8, x19, x8
	cinc	x9, x25, ne
	csel	x19, xzr, x8, eq
	cmp	x25, #3
	add	x20, x23, x9
	b.hs	.LBB2_61
	mov	w27, #43
	stur	wzr, [x28, #195]
	str	wzr, [sp, #672]
	str	xzr, [sp, #904]
	str	xzr, [sp, #896]
	str	xzr, [sp, #912]
	cbz	x25, .LBB2_629
.LBB2_16:
	add	x0, sp, #896
	mov	x1, x23
	mov	x2, x25
	bl	"core::str::utf8::from_utf8"
	ldrb	w8, [sp, #896]
	cbz	w8, .LBB2_190
.LBB2_17:
	mov	w9, #1
.LBB2_18:
	ldr	x28, [sp, #56]
.LBB2_19:
	cmp	w9, #1
	mov	w8, #7
	mov	w10, #5
	csel	x10, x10, x8, eq
	cmp	w9, #3
	mov	w11, #1
	cset	w8, ne
	csel	w9, w9, wzr, ne
	csel	x25, x10, xzr, ne
	b.eq	.LBB2_1223
	str	xzr, [sp, #72]
	mov	x15, xzr
	mov	x13, xzr
	mov	x14, xzr
	mov	x19, xzr
	orr	x22, x8, x9, lsl #8
	mov	w8, wzr
	ldurb	w9, [x26, #72]
	cbnz	w9, .LBB2_22
	b	.LBB2_25
.LBB2_21:
	mov	x15, xzr
	mov	x22, xzr
	mov	x13, xzr
	mov	x14, xzr
	mov	x19, xzr
	mov	w8, wzr
	str	xzr, [sp, #72]
	mov	w11, #1
	mov	w25, #11
	ldurb	w9, [x26, #72]
	cbz	w9, .LBB2_25
.LBB2_22:
	cmp	w9, #2
	b.ne	.LBB2_24
	stp	xzr, xzr, [x26, #88]
	b	.LBB2_25
.LBB2_24:
	ldr	x9, [x26, #80]
	ldr	x10, [x26, #64]
	add	x10, x10, x9
	str	x9, [x26, #88]
	str	x10, [x26, #64]
.LBB2_25:
	movi	v0.2d, #0000000000000000
	stp	xzr, xzr, [x26, #72]
	and	w20, w25, #0xff
	ldrb	w9, [x28]
	str	xzr, [sp, #560]
	str	xzr, [sp, #464]
	str	xzr, [sp, #368]
	stp	q0, q0, [sp, #288]
	stp	q0, q0, [sp, #320]
	stp	q0, q0, [sp, #384]
	stp	q0, q0, [sp, #416]
	stp	q0, q0, [sp, #480]
	stp	q0, q0, [sp, #512]
	str	q0, [sp, #544]
	str	q0, [sp, #448]
	str	q0, [sp, #352]
	str	xzr, [sp, #656]
	stp	q0, q0, [sp, #592]
	stp	q0, q0, [sp, #624]
	str	q0, [sp, #576]
	str	xzr, [sp, #752]
	stp	q0, q0, [sp, #688]
	stp	q0, q0, [sp, #720]
	str	q0, [sp, #672]
	tbz	w9, #0, .LBB2_31
	mov	w9, #1
	strb	w9, [x28]
	str	xzr, [sp, #848]
	stp	q0, q0, [sp, #784]
	stp	q0, q0, [sp, #816]
	str	q0, [sp, #768]
	cbnz	w8, .LBB2_32
.LBB2_27:
	and	x8, x22, #0xff
	cmp	x8, #1
	b.ne	.LBB2_96
	sub	x8, x29, #24
	mov	w9, #32
	add	x10, sp, #1248
	str	x8, [sp, #1248]
	lsr	x8, x22, #8
	mov	x26, x13
	str	w9, [sp, #1272]
	mov	x9, #-1
	and	w8, w8, #0xff
	stp	xzr, xzr, [x10, #8]
	cmp	w8, #1
	stp	xzr, xzr, [x10, #48]
	stur	xzr, [x10, #28]
	stur	wzr, [x10, #36]
	str	x9, [sp, #1288]
	b.gt	.LBB2_176
	cbnz	w8, .LBB2_198
	adrp	x22, .Lstatic.89
	add	x22, x22, :lo12:.Lstatic.89
	mov	w24, #1
	mov	w27, #15
	b	.LBB2_200
.LBB2_31:
	cmp	w20, #27
	csel	w9, wzr, w8, ne
	strb	w9, [x28]
	str	xzr, [sp, #848]
	stp	q0, q0, [sp, #784]
	stp	q0, q0, [sp, #816]
	str	q0, [sp, #768]
	cbz	w8, .LBB2_27
.LBB2_32:
	adrp	x8, .LJTI2_3
	add	x8, x8, :lo12:.LJTI2_3
	stp	q0, q0, [sp, #864]
	stp	q0, q0, [sp, #896]
	and	x24, x25, #0xff00
	and	w28, w19, #0xff
	stp	q0, q0, [sp, #928]
	and	w23, w22, #0xff
	stp	q0, q0, [sp, #960]
	stp	q0, q0, [sp, #992]
	str	xzr, [sp, #1024]
.Ltmp0:
	adr	x9, .Ltmp0
	ldrsw	x10, [x8, x20, lsl #2]
	add	x9, x9, x10
	br	x9
.LBB2_33:
	mov	w0, #15
	mov	w1, #1
	mov	w27, w11
	mov	x26, x19
	str	x15, [sp, #80]
	mov	x25, x14
	mov	x19, x13
	bl	rattle_alloc
	tbz	w0, #0, .LBB2_36
	adrp	x8, .Lstatic.88
	add	x8, x8, :lo12:.Lstatic.88
	mov	x24, x1
	sub	x9, x1, x8
	mov	x0, x26
	cmp	x9, #14
	b.hi	.LBB2_42
	adrp	x8, .LCPI2_7
	adrp	x9, .LCPI2_8
	mov	w10, #25972
	ldr	d0, [x8, :lo12:.LCPI2_7]
	ldr	d1, [x9, :lo12:.LCPI2_8]
	mov	w8, #100
	strh	w10, [x24, #12]
	str	d0, [x24]
	str	s1, [x24, #8]
	strb	w8, [x24, #14]
	b	.LBB2_43
.LBB2_36:
	movi	v0.2d, #0000000000000000
	mov	x0, x26
	mov	x24, xzr
	mov	x26, xzr
	mov	w12, #1
	mov	w8, #10
	b	.LBB2_44
.LBB2_37:
	ldr	s0, [x23]
	movi	v1.4h, #33
	ushll	v0.8h, v0.8b, #0
	cmhi	v1.4h, v1.4h, v0.4h
	umaxv	h1, v1.4h
	fmov	w8, s1
	tbz	w8, #0, .LBB2_68
	umov	w8, v0.h[3]
	mov	w9, #1
	mov	x10, #9216
	movk	x10, #1, lsl #32
	lsl	x9, x9, x8
	cmp	w8, #32
	and	x8, x9, x10
	ccmp	x8, #0, #4, ls
	b.eq	.LBB2_13
	umov	w8, v0.h[2]
	and	w8, w8, #0xff
	cmp	w8, #33
	b.lo	.LBB2_13
	adrp	x8, .LCPI2_3
	ldr	d1, [x8, :lo12:.LCPI2_3]
	cmhi	v0.4h, v0.4h, v1.4h
	dup	v1.4h, v0.h[1]
	and	v0.8b, v0.8b, v1.8b
	umov	w8, v0.h[0]
	tbz	w8, #0, .LBB2_13
	mov	w25, #3
	add	x8, x25, #1
	sub	x19, x19, x8
	add	x22, x23, x8
	cmp	x25, #3
	b.eq	.LBB2_62
	b	.LBB2_71
.LBB2_42:
	ldr	x9, [x8]
	ldur	x8, [x8, #7]
	str	x9, [x24]
	stur	x8, [x24, #7]
.LBB2_43:
	movi	v0.2d, #0000000000000000
	mov	w12, wzr
	mov	w26, #15
	mov	w8, #9217
.LBB2_44:
	str	q0, [sp, #1328]
	str	q0, [sp, #1312]
	str	q0, [sp, #1296]
	str	q0, [sp, #1280]
	str	q0, [sp, #1264]
	str	q0, [sp, #1248]
	ldr	q0, [sp, #1328]
	add	x9, sp, #896
	ldr	q1, [sp, #1312]
	ldr	q2, [sp, #1280]
	lsr	x13, x8, #8
	stur	q0, [x9, #120]
	ldr	q0, [sp, #1296]
	and	x14, x8, #0xff
	stur	q1, [x9, #104]
	ldr	q1, [sp, #1264]
	adrp	x8, .LJTI2_4
	add	x8, x8, :lo12:.LJTI2_4
	stur	q0, [x9, #88]
	ldr	q0, [sp, #1248]
	stur	q2, [x9, #72]
	stur	q0, [x9, #40]
	stur	q1, [x9, #56]
	ldr	x9, [sp, #936]
	str	x9, [sp, #64]
.Ltmp1:
	adr	x9, .Ltmp1
	ldrsw	x10, [x8, x20, lsl #2]
	add	x9, x9, x10
	br	x9
.LBB2_45:
	cbz	x19, .LBB2_48
.LBB2_46:
	mov	w19, w12
	mov	x20, x13
	mov	x22, x14
	bl	rattle_dealloc
	mov	x14, x22
	mov	x13, x20
.LBB2_47:
	mov	w12, w19
.LBB2_48:
	mov	x8, xzr
	add	x10, sp, #896
.LBB2_49:
	ldp	q0, q1, [x10, #80]
	ldur	q2, [x10, #112]
	ldur	x9, [x10, #128]
	str	x26, [sp, #72]
	str	q2, [sp, #832]
	stp	q0, q1, [sp, #800]
	ldp	q0, q1, [x10, #48]
.LBB2_50:
	str	x9, [sp, #848]
.LBB2_51:
	stp	q0, q1, [sp, #768]
.LBB2_52:
	ldp	q4, q2, [sp, #784]
	ldr	q3, [sp, #768]
	ldp	q0, q1, [sp, #816]
	ldr	x9, [sp, #848]
	str	q3, [sp, #672]
	stp	q3, q4, [sp, #576]
	mov	x10, x9
	stp	q0, q1, [sp, #624]
	stp	q0, q1, [sp, #720]
	ldp	q1, q0, [sp, #576]
	str	x9, [sp, #656]
	str	x9, [sp, #752]
	lsl	x9, x13, #8
	str	q2, [sp, #704]
	str	q2, [sp, #608]
	orr	x8, x9, x8, lsl #16
	stp	q1, q0, [sp, #384]
	ldp	q0, q2, [sp, #624]
	ldr	q1, [sp, #608]
	orr	x20, x8, x14
	str	x10, [sp, #464]
	stp	q0, q2, [sp, #432]
	str	q1, [sp, #416]
	cbnz	w12, .LBB2_1194
.LBB2_53:
	movi	v0.2d, #0000000000000000
	ldur	x8, [x21, #8]
	str	xzr, [sp, #704]
	str	xzr, [sp, #608]
	str	q0, [sp, #1040]
	str	q0, [sp, #1056]
	str	q0, [sp, #1072]
	stp	q0, q0, [sp, #672]
	stp	q0, q0, [x29, #-128]
	stur	q0, [x29, #-96]
	stp	q0, q0, [sp, #576]
	cbz	x8, .LBB2_55
	stur	xzr, [x21, #8]
.LBB2_55:
	and	w25, w20, #0xff
	str	x24, [sp, #80]
	cbz	w25, .LBB2_413
	lsr	x8, x20, #8
	cmp	w25, #2
	b.ne	.LBB2_59
	and	w27, w8, #0xff
	and	x8, x8, #0xff
	adrp	x9, .LJTI2_5
	add	x9, x9, :lo12:.LJTI2_5
	mov	w20, #1
.Ltmp2:
	adr	x10, .Ltmp2
	ldrsw	x11, [x9, x8, lsl #2]
	add	x10, x10, x11
	br	x10
.LBB2_58:
	mov	w27, #1
	cbnz	x26, .LBB2_291
	b	.LBB2_208
.LBB2_59:
	and	x8, x8, #0xff
	adrp	x9, .LJTI2_6
	add	x9, x9, :lo12:.LJTI2_6
.Ltmp3:
	adr	x10, .Ltmp3
	ldrsw	x11, [x9, x8, lsl #2]
	add	x10, x10, x11
	mov	w20, #110
	mov	w19, wzr
	br	x10
.LBB2_60:
	mov	w8, #1
	mov	w20, wzr
	mov	w19, w8
	b	.LBB2_397
.LBB2_61:
	mov	x22, x20
	cmp	x25, #3
	b.ne	.LBB2_71
.LBB2_62:
	ldrb	w26, [x23]
	ldrb	w24, [x23, #1]
	ldrb	w20, [x23, #2]
	orr	w8, w26, w24, lsl #8
	orr	w0, w8, w20, lsl #16
	bl	"unftp_control_defs::verb::verb_of"
	and	w8, w0, #0xff
	cmp	w8, #1
	b.ne	.LBB2_76
	ldr	x26, [sp, #48]
	mov	w27, w1
	b	.LBB2_90
.LBB2_64:
	ldp	x10, x9, [x26, #40]
	sub	x11, x9, x8
	add	x13, x10, x8
	sub	x16, x11, x14
	cmp	x16, #8
	b.hs	.LBB2_80
	cmp	x16, #4
	b.lo	.LBB2_92
	ldr	s0, [x13, x14]
	movi	v1.4h, #10
	ushll	v0.8h, v0.8b, #0
	cmeq	v0.4h, v0.4h, v1.4h
	umaxv	h1, v0.4h
	fmov	w12, s1
	tbz	w12, #0, .LBB2_179
	adrp	x9, .LCPI2_2
	mov	x12, x14
	b	.LBB2_195
.LBB2_68:
	mov	x0, x23
	ldrb	w8, [x0, #4]!
	cmp	w8, #32
	b.hi	.LBB2_140
	mov	w9, #1
	lsl	x8, x9, x8
	mov	x9, #9216
	movk	x9, #1, lsl #32
	tst	x8, x9
	b.eq	.LBB2_140
	mov	w25, #4
	add	x8, x25, #1
	sub	x19, x19, x8
	add	x22, x23, x8
	cmp	x25, #3
	b.eq	.LBB2_62
.LBB2_71:
	cmp	x25, #4
	b.hi	.LBB2_188
	ldrb	w20, [x23, #3]
	cbz	w20, .LBB2_98
	ldrb	w27, [x23]
	ldrb	w26, [x23, #1]
	ldrb	w24, [x23, #2]
	ldr	h0, [x23]
	orr	w8, w27, w20, lsl #24
	str	q0, [sp, #80]
	orr	w8, w8, w26, lsl #8
	orr	w0, w8, w24, lsl #16
	bl	"unftp_control_defs::verb::verb_of"
	and	w8, w0, #0xff
	cmp	w8, #1
	b.ne	.LBB2_135
	ldr	x26, [sp, #48]
	mov	x27, x1
	b	.LBB2_90
.LBB2_75:
	mov	w8, #1
	add	x19, x9, #1
	stp	x8, x19, [x26, #72]
	b	.LBB2_12
.LBB2_76:
	cmp	w20, #96
	b.hi	.LBB2_89
	cmp	w26, #96
	b.hi	.LBB2_89
	cmp	w24, #97
	b.hs	.LBB2_89
	ldr	x26, [sp, #48]
	mov	w27, #43
	mov	w25, #3
	b	.LBB2_189
.LBB2_80:
	cmp	x16, #32
	adrp	x12, .LCPI2_0
	b.lo	.LBB2_83
.LBB2_81:
	movi	v0.16b, #10
	add	x15, x13, x14
	ldp	q1, q2, [x15]
	cmeq	v2.16b, v2.16b, v0.16b
	cmeq	v0.16b, v1.16b, v0.16b
	ldr	q1, [x12, :lo12:.LCPI2_0]
	and	v0.16b, v0.16b, v1.16b
	and	v1.16b, v2.16b, v1.16b
	addp	v0.16b, v0.16b, v1.16b
	addp	v0.16b, v0.16b, v0.16b
	addp	v0.16b, v0.16b, v0.16b
	fmov	w15, s0
	cbnz	w15, .LBB2_145
	sub	x16, x16, #32
	add	x14, x14, #32
	cmp	x16, #31
	b.hi	.LBB2_81
.LBB2_83:
	subs	x17, x16, #16
	b.lo	.LBB2_99
	movi	v0.16b, #10
	ldr	q1, [x13, x14]
	cmeq	v0.16b, v1.16b, v0.16b
	ldr	q1, [x12, :lo12:.LCPI2_0]
	and	v0.16b, v0.16b, v1.16b
	addp	v0.16b, v0.16b, v0.16b
	addp	v0.16b, v0.16b, v0.16b
	addp	v0.16b, v0.16b, v0.16b
	umov	w15, v0.h[0]
	cbz	w15, .LBB2_191
	mov	x12, x14
	mov	w14, #16
	b	.LBB2_5
.LBB2_86:
	mov	w0, #22
	mov	w1, #1
	bl	rattle_alloc
	tbz	w0, #0, .LBB2_106
	adrp	x8, .Lstatic.58
	add	x8, x8, :lo12:.Lstatic.58
	mov	x24, x1
	sub	x9, x1, x8
	cmp	x9, #21
	b.hi	.LBB2_183
	adrp	x8, .LCPI2_19
	adrp	x9, .LCPI2_20
	ldr	q0, [x8, :lo12:.LCPI2_19]
	ldr	d1, [x9, :lo12:.LCPI2_20]
	mov	w8, #25701
	strh	w8, [x24, #20]
	str	q0, [x24]
	str	s1, [x24, #16]
	b	.LBB2_184
.LBB2_89:
	sub	w8, w26, #97
	sub	w9, w26, #32
	sub	w10, w24, #32
	cmp	w8, #26
	sub	w8, w24, #97
	sub	w11, w20, #32
	csel	w9, w9, w26, lo
	cmp	w8, #26
	csel	w8, w10, w24, lo
	sub	w10, w20, #97
	cmp	w10, #26
	ubfiz	w0, w8, #8, #8
	csel	w8, w11, w20, lo
	bfi	w0, w8, #16, #8
	bfxil	w0, w9, #0, #8
	bl	"unftp_control_defs::verb::verb_of"
	and	w8, w0, #0xff
	ldr	x26, [sp, #48]
	mov	w27, w1
	cmp	w8, #1
	b.ne	.LBB2_188
.LBB2_90:
	mov	w8, w27
	adrp	x9, .LJTI2_0
	add	x9, x9, :lo12:.LJTI2_0
	and	x8, x8, #0xff
	mov	w25, #2
.Ltmp4:
	adr	x10, .Ltmp4
	ldrsw	x11, [x9, x8, lsl #2]
	add	x10, x10, x11
	br	x10
.LBB2_91:
	mov	w25, #3
	b	.LBB2_528
.LBB2_92:
	mov	x12, x14
	cmp	x14, x11
	b.lo	.LBB2_180
	b	.LBB2_1197
.LBB2_93:
	cmp	w28, #1
	b.ne	.LBB2_48
	cbz	x22, .LBB2_48
	mov	x0, x25
	b	.LBB2_46
.LBB2_96:
	sub	x8, x29, #24
	add	x9, sp, #1248
	adrp	x22, .Lstatic.94
	add	x22, x22, :lo12:.Lstatic.94
	str	x8, [sp, #1248]
	mov	w8, #32
	str	w8, [sp, #1272]
	mov	x8, #-1
	mov	w23, #20
	str	x8, [sp, #1288]
	adrp	x8, .LJTI2_2
	add	x8, x8, :lo12:.LJTI2_2
	stp	xzr, xzr, [x9, #8]
	mov	w27, wzr
	mov	x25, x13
	stp	xzr, xzr, [x9, #48]
	stur	xzr, [x9, #28]
	stur	wzr, [x9, #36]
.Ltmp5:
	adr	x9, .Ltmp5
	ldrsw	x10, [x8, x20, lsl #2]
	add	x9, x9, x10
	br	x9
.LBB2_97:
	mov	w27, wzr
	adrp	x22, .Lstatic.95
	add	x22, x22, :lo12:.Lstatic.95
	mov	w23, #23
	b	.LBB2_542
.LBB2_98:
	mov	w27, #43
	mov	w25, #4
	b	.LBB2_189
.LBB2_99:
	mov	x12, x14
	cmp	x16, #8
	b.lo	.LBB2_192
.LBB2_100:
	movi	v0.8b, #10
	ldr	d1, [x13, x12]
	cmeq	v0.8b, v1.8b, v0.8b
	umaxv	b1, v0.8b
	fmov	w14, s1
	tbz	w14, #0, .LBB2_457
	adrp	x9, .LCPI2_1
	mov	w14, #8
	ldr	d1, [x9, :lo12:.LCPI2_1]
	and	v0.8b, v0.8b, v1.8b
	addv	b0, v0.8b
	umov	w15, v0.b[0]
	b	.LBB2_5
.LBB2_102:
	mov	w25, #1
	b	.LBB2_528
.LBB2_103:
	mov	w0, #176
	mov	w1, #8
	str	xzr, [sp, #1152]
	str	q0, [sp, #1136]
	str	q0, [sp, #1120]
	str	q0, [sp, #1104]
	str	q0, [sp, #1088]
	str	q0, [sp, #1072]
	str	q0, [sp, #1056]
	str	q0, [sp, #1040]
	bl	rattle_alloc
	tbz	w0, #0, .LBB2_182
	adrp	x8, .Lstatic.63
	add	x8, x8, :lo12:.Lstatic.63
	mov	x24, x1
	ldp	q0, q1, [x8]
	sub	x9, x1, x8
	cmp	x9, #63
	adrp	x9, .Lstatic.67
	add	x9, x9, :lo12:.Lstatic.67
	str	q0, [x1]
	ldp	q0, q2, [x8, #32]
	add	x8, x1, #64
	sub	x10, x8, x9
	stp	q1, q0, [x1, #16]
	ldp	q0, q1, [x9]
	cmp	x10, #31
	str	q2, [x1, #48]
	b.hi	.LBB2_459
	str	q0, [x8]
	str	q1, [x24, #80]
	b	.LBB2_460
.LBB2_106:
	movi	v0.2d, #0000000000000000
	mov	x13, xzr
	mov	x8, xzr
	mov	x24, xzr
	mov	x26, xzr
	stp	xzr, xzr, [sp, #64]
	str	xzr, [sp, #848]
	mov	w12, #1
	mov	w14, #10
	stp	q0, q0, [sp, #784]
	stp	q0, q0, [sp, #816]
	str	q0, [sp, #768]
	b	.LBB2_52
.LBB2_107:
	mov	w0, #3
	mov	w1, #1
	bl	rattle_alloc
	tbz	w0, #0, .LBB2_112
	adrp	x8, .Lstatic.55
	add	x8, x8, :lo12:.Lstatic.55
	mov	x24, x1
	sub	x8, x1, x8
	cmp	x8, #2
	b.hi	.LBB2_465
	mov	w8, #31042
	mov	w9, #101
	strh	w8, [x24]
	strb	w9, [x24, #2]
	b	.LBB2_466
.LBB2_110:
	mov	w0, #2
	mov	w1, #1
	bl	rattle_alloc
	tbz	w0, #0, .LBB2_112
	movi	v0.2d, #0000000000000000
	adrp	x8, .Lstatic.54
	add	x8, x8, :lo12:.Lstatic.54
	sub	x8, x1, x8
	add	x10, sp, #896
	mov	x24, x1
	cmp	x8, #1
	mov	w8, #19279
	mov	w12, wzr
	strh	w8, [x1]
	mov	w14, #1
	mov	w13, #7
	stur	q0, [x10, #120]
	mov	w26, #2
	b	.LBB2_467
.LBB2_112:
	movi	v0.2d, #0000000000000000
	mov	x26, xzr
	mov	x24, xzr
	mov	x13, xzr
	add	x10, sp, #896
	mov	w12, #1
	mov	w14, #10
	stur	xzr, [x10, #128]
	stp	q0, q0, [x10, #32]
	stp	q0, q0, [x10, #64]
	stp	q0, q0, [x10, #96]
	stur	q0, [x10, #16]
	b	.LBB2_468
.LBB2_113:
	cmp	x14, #4
	b.ne	.LBB2_142
	ldr	w8, [x19]
	mov	x9, #17221
	movk	x9, #20296, lsl #16
	orr	x8, x8, x8, lsl #32
	orr	x9, x9, x9, lsl #32
	cmp	x8, x9
	b.ne	.LBB2_142
	cbz	x13, .LBB2_117
	mov	x0, x19
	mov	x20, x15
	bl	rattle_dealloc
	mov	x15, x20
.LBB2_117:
	movi	v0.2d, #0000000000000000
	add	x10, sp, #896
	str	xzr, [sp, #64]
	mov	w12, wzr
	mov	w14, #1
	mov	w13, #7
	mov	x24, x22
	stur	q0, [x10, #120]
	stur	q0, [x10, #104]
	stur	q0, [x10, #88]
	stur	q0, [x10, #72]
	stur	q0, [x10, #56]
	stur	q0, [x10, #40]
	b	.LBB2_486
.LBB2_118:
	mov	w0, #72
	mov	w1, #8
	bl	rattle_alloc
	tbz	w0, #0, .LBB2_185
	mov	x24, x1
	mov	w0, #5
	mov	w1, #1
	bl	rattle_alloc
	tbz	w0, #0, .LBB2_469
	adrp	x20, .Lstatic.76
	add	x20, x20, :lo12:.Lstatic.76
	sub	x8, x1, x20
	sub	x8, x8, #48
	cmp	x8, #4
	b.hi	.LBB2_497
	adrp	x8, .LCPI2_11
	ldr	d0, [x8, :lo12:.LCPI2_11]
	mov	w8, #58
	strb	w8, [x1, #4]
	str	s0, [x1]
	b	.LBB2_498
.LBB2_122:
	tst	x25, #0x10000
	mov	w8, #21
	mov	w9, #28
	csel	x26, x9, x8, eq
	adrp	x20, .Lstatic.79
	add	x20, x20, :lo12:.Lstatic.79
	adrp	x22, .Lstatic.80
	add	x22, x22, :lo12:.Lstatic.80
	mov	x0, x26
	mov	w1, #1
	csel	x19, x22, x20, eq
	bl	rattle_alloc
	tbz	w0, #0, .LBB2_134
	sub	x8, x1, x19
	mov	x24, x1
	cmp	x8, x26
	b.hs	.LBB2_470
	sub	x8, x24, x19
	cmp	x8, #7
	b.hi	.LBB2_501
	mov	x10, xzr
	b	.LBB2_503
.LBB2_126:
	cmp	x24, #0
	mov	w10, #38
	mov	w11, #26
	csel	x26, x11, x10, eq
	adrp	x8, .Lstatic.78
	add	x8, x8, :lo12:.Lstatic.78
	adrp	x9, .Lstatic.77
	add	x9, x9, :lo12:.Lstatic.77
	mov	x0, x26
	mov	w1, #1
	csel	x19, x9, x8, eq
	bl	rattle_alloc
	tbz	w0, #0, .LBB2_134
	sub	x8, x1, x19
	cmp	x8, x26
	b.hs	.LBB2_186
	sub	x8, x1, x19
	cmp	x8, #16
	b.hs	.LBB2_506
	mov	x20, x1
	mov	x8, xzr
	b	.LBB2_512
.LBB2_130:
	cmp	x24, #0
	mov	w10, #37
	mov	w11, #22
	csel	x26, x11, x10, eq
	adrp	x8, .Lstatic.82
	add	x8, x8, :lo12:.Lstatic.82
	adrp	x9, .Lstatic.81
	add	x9, x9, :lo12:.Lstatic.81
	mov	x0, x26
	mov	w1, #1
	csel	x19, x9, x8, eq
	bl	rattle_alloc
	tbz	w0, #0, .LBB2_134
	sub	x8, x1, x19
	cmp	x8, x26
	b.hs	.LBB2_186
	sub	x8, x1, x19
	cmp	x8, #15
	b.hi	.LBB2_514
	mov	x20, x1
	mov	x8, xzr
	b	.LBB2_518
.LBB2_134:
	movi	v0.2d, #0000000000000000
	mov	x24, xzr
	mov	x26, xzr
	mov	w12, #1
	mov	w9, #10
	b	.LBB2_522
.LBB2_135:
	cmp	w20, #96
	b.hi	.LBB2_187
	cmp	w24, #96
	b.hi	.LBB2_187
	cmp	w27, #96
	b.hi	.LBB2_187
	cmp	w26, #97
	b.hs	.LBB2_187
	ldr	x26, [sp, #48]
	mov	w27, #43
	mov	w25, #4
	b	.LBB2_189
.LBB2_140:
	bl	"unftp_control_codecs::line_parser::parser::word_len"
	add	x25, x0, #4
	b	.LBB2_14
.LBB2_141:
	mov	w25, #6
	b	.LBB2_528
.LBB2_142:
	mov	w0, #15
	mov	w1, #1
	mov	x25, x13
	bl	rattle_alloc
	tbz	w0, #0, .LBB2_196
	adrp	x8, .Lstatic.88
	add	x8, x8, :lo12:.Lstatic.88
	mov	x24, x1
	sub	x9, x1, x8
	cmp	x9, #14
	b.hi	.LBB2_479
	adrp	x8, .LCPI2_7
	adrp	x9, .LCPI2_8
	mov	w10, #25972
	ldr	d0, [x8, :lo12:.LCPI2_7]
	ldr	d1, [x9, :lo12:.LCPI2_8]
	mov	w8, #100
	strh	w10, [x24, #12]
	str	d0, [x24]
	str	s1, [x24, #8]
	strb	w8, [x24, #14]
	b	.LBB2_480
.LBB2_145:
	mov	x12, x14
	mov	w14, #32
	b	.LBB2_5
.LBB2_146:
	cmp	w23, #1
	b.ne	.LBB2_48
	ldr	x10, [sp, #80]
.LBB2_148:
	ldaxr	x8, [x10]
	subs	x8, x8, #1
	stlxr	w9, x8, [x10]
	cbnz	w9, .LBB2_148
	b.eq	.LBB2_168
	b	.LBB2_48
.LBB2_150:
	cbz	x19, .LBB2_152
	mov	w19, w12
	mov	x20, x13
	mov	x23, x14
	bl	rattle_dealloc
	mov	x14, x23
	mov	x13, x20
	mov	w12, w19
.LBB2_152:
	ldr	x8, [sp, #72]
	cbz	x8, .LBB2_48
	mov	x0, x22
	b	.LBB2_46
.LBB2_154:
	cmp	w23, #1
	b.ne	.LBB2_48
	ldr	x10, [sp, #80]
.LBB2_156:
	ldaxr	x8, [x10]
	subs	x8, x8, #1
	stlxr	w9, x8, [x10]
	cbnz	w9, .LBB2_156
	b.eq	.LBB2_168
	b	.LBB2_48
.LBB2_158:
	cmp	w28, #1
	b.ne	.LBB2_48
	ldr	x8, [sp, #80]
	and	x8, x8, #0xff
	cmp	x8, #1
	b.ne	.LBB2_48
.LBB2_161:
	ldr	x8, [sp, #72]
	ldaxr	x8, [x8]
	ldr	x10, [sp, #72]
	subs	x8, x8, #1
	stlxr	w9, x8, [x10]
	cbnz	w9, .LBB2_161
	b.ne	.LBB2_48
	ldr	x0, [sp, #72]
	b	.LBB2_169
.LBB2_164:
	cmp	w23, #1
	b.ne	.LBB2_48
	ldr	x10, [sp, #80]
.LBB2_166:
	ldaxr	x8, [x10]
	subs	x8, x8, #1
	stlxr	w9, x8, [x10]
	cbnz	w9, .LBB2_166
	b.ne	.LBB2_48
.LBB2_168:
	ldr	x0, [sp, #80]
.LBB2_169:
	ldr	x22, [x0, #8]
	ldr	x20, [x0, #24]
	mov	w19, w12
	mov	x23, x13
	mov	x25, x14
	bl	rattle_dealloc
	mov	x14, x25
	mov	x13, x23
	mov	w12, w19
	cbz	x20, .LBB2_48
	mov	x0, x22
	bl	rattle_dealloc
	mov	x14, x25
	mov	x13, x23
	b	.LBB2_47
.LBB2_171:
	cmp	w28, #1
	b.ne	.LBB2_174
	cbz	x22, .LBB2_174
	mov	x0, x25
	mov	w19, w12
	mov	x23, x13
	mov	x22, x14
	bl	rattle_dealloc
	mov	x14, x22
	mov	x13, x23
	mov	w12, w19
.LBB2_174:
	ldr	x8, [sp, #80]
	and	x8, x8, #0xff
	cmp	x8, #1
	cset	w8, ne
	orr	w8, w8, w27
	tbnz	w8, #0, .LBB2_48
	ldr	x0, [sp, #72]
	b	.LBB2_46
.LBB2_176:
	cmp	w8, #2
	b.ne	.LBB2_199
	mov	w24, wzr
	adrp	x22, .Lstatic.91
	add	x22, x22, :lo12:.Lstatic.91
	mov	w27, #19
	b	.LBB2_200
.LBB2_178:
	stur	wzr, [x28, #195]
	ldr	x28, [sp, #56]
	mov	x16, xzr
	mov	x26, xzr
	mov	x17, xzr
	mov	x23, xzr
	mov	x10, xzr
	mov	w8, wzr
	mov	w12, wzr
	mov	w11, wzr
	adrp	x24, .Lstatic.2
	add	x24, x24, :lo12:.Lstatic.2
	str	wzr, [sp, #672]
	b	.LBB2_760
.LBB2_179:
	add	x12, x14, #4
	cmp	x12, x11
	b.hs	.LBB2_1197
.LBB2_180:
	ldrb	w14, [x13, x12]
	cmp	w14, #10
	b.eq	.LBB2_478
	add	x12, x12, #1
	cmp	x12, x11
	b.lo	.LBB2_180
	b	.LBB2_1196
.LBB2_182:
	movi	v0.2d, #0000000000000000
	mov	x26, xzr
	mov	x24, xzr
	mov	x13, xzr
	add	x10, sp, #896
	mov	w12, #1
	mov	w14, #10
	stp	xzr, xzr, [sp, #64]
	stur	xzr, [x10, #128]
	stp	q0, q0, [x10, #32]
	stp	q0, q0, [x10, #64]
	stp	q0, q0, [x10, #96]
	stur	q0, [x10, #16]
	b	.LBB2_1016
.LBB2_183:
	ldr	q0, [x8]
	ldur	x8, [x8, #14]
	str	q0, [x24]
	stur	x8, [x24, #14]
.LBB2_184:
	movi	v0.2d, #0000000000000000
	mov	w9, #22
	mov	w12, wzr
	mov	x8, xzr
	str	xzr, [sp, #848]
	mov	w26, #22
	mov	w13, #36
	mov	w14, #1
	stp	xzr, x9, [sp, #64]
	stp	q0, q0, [sp, #784]
	stp	q0, q0, [sp, #816]
	str	q0, [sp, #768]
	b	.LBB2_52
.LBB2_185:
	movi	v0.2d, #0000000000000000
	mov	x26, xzr
	mov	x24, xzr
	mov	w12, #1
	mov	w9, #10
	stp	q0, q0, [x29, #-128]
	stp	q0, q0, [x29, #-96]
	stp	q0, q0, [x29, #-64]
	b	.LBB2_604
.LBB2_186:
	mov	x20, x1
	mov	x0, x1
	mov	x1, x19
	mov	x2, x26
	bl	memcpy
	b	.LBB2_520
.LBB2_187:
	ldr	q0, [sp, #80]
	fmov	s1, w24
	movi	v2.4h, #159
	movi	v3.4h, #26
	movi	v4.4h, #224
	ushll	v0.8h, v0.8b, #0
	mov	v1.h[1], w20
	ushll	v0.4s, v0.4h, #0
	mov	w8, v0.s[1]
	mov	v1.h[2], w8
	adrp	x8, .LCPI2_4
	mov	v1.h[3], v0.h[0]
	add	v2.4h, v1.4h, v2.4h
	bic	v2.4h, #255, lsl #8
	cmhi	v2.4h, v3.4h, v2.4h
	and	v2.8b, v2.8b, v4.8b
	add	v1.4h, v1.4h, v2.4h
	movi	v2.2d, #0x0000ff000000ff
	ushll	v1.4s, v1.4h, #0
	and	v1.16b, v1.16b, v2.16b
	ldr	q2, [x8, :lo12:.LCPI2_4]
	ushl	v1.4s, v1.4s, v2.4s
	ext	v2.16b, v1.16b, v1.16b, #8
	orr	v1.8b, v1.8b, v2.8b
	fmov	x8, d1
	lsr	x9, x8, #32
	orr	w0, w8, w9
	bl	"unftp_control_defs::verb::verb_of"
	and	w8, w0, #0xff
	ldr	x26, [sp, #48]
	mov	w27, w1
	cmp	w8, #1
	b.eq	.LBB2_90
.LBB2_188:
	mov	w27, #43
.LBB2_189:
	mov	x20, x22
	stur	wzr, [x28, #195]
	str	wzr, [sp, #672]
	str	xzr, [sp, #904]
	str	xzr, [sp, #896]
	str	xzr, [sp, #912]
	add	x0, sp, #896
	mov	x1, x23
	mov	x2, x25
	bl	"core::str::utf8::from_utf8"
	ldrb	w8, [sp, #896]
	cbnz	w8, .LBB2_17
.LBB2_190:
	ldr	x16, [sp, #912]
	ldr	x24, [sp, #904]
	mov	w25, #4
	mov	x22, x20
	movi	v0.2d, #0000000000000000
	stp	q0, q0, [sp, #896]
	cbnz	x19, .LBB2_630
	b	.LBB2_646
.LBB2_191:
	add	x12, x14, #16
	cmp	x17, #8
	b.hs	.LBB2_100
.LBB2_192:
	sub	x14, x11, x12
	cmp	x14, #4
	b.lo	.LBB2_458
.LBB2_193:
	ldr	s0, [x13, x12]
	movi	v1.4h, #10
	ushll	v0.8h, v0.8b, #0
	cmeq	v0.4h, v0.4h, v1.4h
	umaxv	h1, v0.4h
	fmov	w14, s1
	tbz	w14, #0, .LBB2_475
	adrp	x9, .LCPI2_2
.LBB2_195:
	mov	w14, #4
	ldr	d1, [x9, :lo12:.LCPI2_2]
	and	v0.8b, v0.8b, v1.8b
	addv	h0, v0.4h
	fmov	w9, s0
	and	x15, x9, #0xf
	b	.LBB2_5
.LBB2_196:
	movi	v0.2d, #0000000000000000
	mov	x24, xzr
	mov	x15, xzr
	mov	w12, #1
	mov	w20, #10
	add	x8, sp, #896
	mov	x10, x25
	mov	x0, x22
	b	.LBB2_481
.LBB2_197:
	mov	w25, #4
	b	.LBB2_528
.LBB2_198:
	mov	w24, wzr
	adrp	x22, .Lstatic.90
	add	x22, x22, :lo12:.Lstatic.90
	mov	w27, #32
	b	.LBB2_200
.LBB2_199:
	adrp	x22, .Lstatic.92
	add	x22, x22, :lo12:.Lstatic.92
	mov	w24, #1
	mov	w27, #13
.LBB2_200:
	add	x0, sp, #1248
	mov	x1, x27
	bl	"std_alloc::vec::Vec::grow_amortized::<#1908c79f2a33ade2>"
	cbz	w0, .LBB2_1242
	ldr	x25, [sp, #1248]
	ldr	x23, [sp, #1256]
	add	x9, x25, x23
	sub	x8, x9, x22
	cmp	x8, x27
	b.hs	.LBB2_204
	add	x8, x23, x25
	mov	x13, x25
	mov	x14, x26
	sub	x8, x8, x22
	cmp	x8, #16
	b.hs	.LBB2_205
	mov	x8, xzr
	mov	x24, x13
	b	.LBB2_494
.LBB2_204:
	add	x0, x25, x23
	mov	x1, x22
	mov	x2, x27
	bl	memcpy
	mov	x24, x25
	mov	x14, x26
	ldr	x8, [sp, #1264]
	add	x26, x23, x27
	cmp	w20, #6
	str	x8, [sp, #72]
	b.eq	.LBB2_559
	b	.LBB2_561
.LBB2_205:
	tbz	w24, #0, .LBB2_487
	mov	x8, xzr
	mov	x24, x13
	b	.LBB2_491
.LBB2_207:
	mov	w20, wzr
	mov	w27, #550
	cbnz	x26, .LBB2_291
.LBB2_208:
	cmp	w20, #0
	mov	w8, #6
	mov	w9, #4
	mov	x19, xzr
	mov	x22, xzr
	csel	x1, x9, x8, ne
	adrp	x28, .Lstatic.2
	add	x28, x28, :lo12:.Lstatic.2
	b	.LBB2_298
.LBB2_209:
	mov	w20, wzr
	mov	w27, #503
	cbnz	x26, .LBB2_291
	b	.LBB2_208
.LBB2_210:
	mov	w19, wzr
	mov	w20, #550
	b	.LBB2_396
.LBB2_211:
	mov	w20, wzr
	mov	w27, #501
	cbnz	x26, .LBB2_291
	b	.LBB2_208
.LBB2_212:
	mov	w20, wzr
	mov	w27, #502
	cbnz	x26, .LBB2_291
	b	.LBB2_208
.LBB2_213:
	mov	w19, wzr
	mov	w20, #503
	b	.LBB2_396
.LBB2_214:
	mov	w19, wzr
	mov	w20, #501
	b	.LBB2_396
.LBB2_215:
	mov	w20, wzr
	mov	w27, #350
	cbnz	x26, .LBB2_291
	b	.LBB2_208
.LBB2_216:
	mov	w20, wzr
	mov	w27, #500
	cbnz	x26, .LBB2_291
	b	.LBB2_208
.LBB2_217:
	mov	w19, wzr
	mov	w20, #502
	b	.LBB2_396
.LBB2_218:
	mov	w20, wzr
	mov	w27, #225
	cbnz	x26, .LBB2_291
	b	.LBB2_208
.LBB2_219:
	mov	w20, wzr
	mov	w27, #551
	cbnz	x26, .LBB2_291
	b	.LBB2_208
.LBB2_220:
	mov	w19, wzr
	mov	w20, #350
	b	.LBB2_396
.LBB2_221:
	mov	w19, wzr
	mov	w20, #500
	b	.LBB2_396
.LBB2_222:
	mov	w20, wzr
	mov	w27, #220
	cbnz	x26, .LBB2_291
	b	.LBB2_208
.LBB2_223:
	mov	w20, wzr
	mov	w27, #452
	cbnz	x26, .LBB2_291
	b	.LBB2_208
.LBB2_224:
	mov	w19, wzr
	mov	w20, #225
	b	.LBB2_396
.LBB2_225:
	mov	w20, wzr
	mov	w27, #213
	cbnz	x26, .LBB2_291
	b	.LBB2_208
.LBB2_226:
	mov	w19, wzr
	mov	w20, #551
	b	.LBB2_396
.LBB2_227:
	mov	w19, wzr
	mov	w20, #220
	b	.LBB2_396
.LBB2_228:
	mov	w19, wzr
	mov	w20, #452
	b	.LBB2_396
.LBB2_229:
	mov	w20, wzr
	mov	w27, #120
	cbnz	x26, .LBB2_291
	b	.LBB2_208
.LBB2_230:
	mov	w20, wzr
	mov	w27, #532
	cbnz	x26, .LBB2_291
	b	.LBB2_208
.LBB2_231:
	mov	w20, wzr
	mov	w27, #214
	cbnz	x26, .LBB2_291
	b	.LBB2_208
.LBB2_232:
	mov	w20, wzr
	mov	w27, #211
	cbnz	x26, .LBB2_291
	b	.LBB2_208
.LBB2_233:
	mov	w20, wzr
	mov	w27, #331
	cbnz	x26, .LBB2_291
	b	.LBB2_208
.LBB2_234:
	mov	w20, wzr
	mov	w27, #257
	cbnz	x26, .LBB2_291
	b	.LBB2_208
.LBB2_235:
	mov	w27, #2
	cbnz	x26, .LBB2_291
	b	.LBB2_208
.LBB2_236:
	mov	w20, wzr
	mov	w27, #221
	cbnz	x26, .LBB2_291
	b	.LBB2_208
.LBB2_237:
	mov	w20, wzr
	mov	w27, #110
	cbnz	x26, .LBB2_291
	b	.LBB2_208
.LBB2_238:
	mov	w19, wzr
	mov	w20, #213
	b	.LBB2_396
.LBB2_239:
	mov	w20, wzr
	mov	w27, #200
	cbnz	x26, .LBB2_291
	b	.LBB2_208
.LBB2_240:
	mov	w20, wzr
	mov	w27, #450
	cbnz	x26, .LBB2_291
	b	.LBB2_208
.LBB2_241:
	mov	w20, wzr
	mov	w27, #226
	cbnz	x26, .LBB2_291
	b	.LBB2_208
.LBB2_242:
	mov	w19, wzr
	mov	w20, #120
	b	.LBB2_396
.LBB2_243:
	mov	w19, wzr
	mov	w20, #532
	b	.LBB2_396
.LBB2_244:
	mov	w20, wzr
	mov	w27, #533
	cbnz	x26, .LBB2_291
	b	.LBB2_208
.LBB2_245:
	mov	w20, wzr
	mov	w27, #230
	cbnz	x26, .LBB2_291
	b	.LBB2_208
.LBB2_246:
	mov	w20, wzr
	mov	w27, #125
	cbnz	x26, .LBB2_291
	b	.LBB2_208
.LBB2_247:
	mov	w19, wzr
	mov	w20, #214
	b	.LBB2_396
.LBB2_248:
	mov	w20, wzr
	mov	w27, #232
	cbnz	x26, .LBB2_291
	b	.LBB2_208
.LBB2_249:
	mov	w20, wzr
	mov	w27, #215
	cbnz	x26, .LBB2_291
	b	.LBB2_208
.LBB2_250:
	mov	w20, wzr
	mov	w27, #150
	cbnz	x26, .LBB2_291
	b	.LBB2_208
.LBB2_251:
	mov	w19, wzr
	mov	w20, #211
	b	.LBB2_396
.LBB2_252:
	mov	w20, wzr
	mov	w27, #227
	cbnz	x26, .LBB2_291
	b	.LBB2_208
.LBB2_253:
	mov	w19, wzr
	mov	w20, #331
	b	.LBB2_396
.LBB2_254:
	mov	w20, wzr
	mov	w27, #212
	cbnz	x26, .LBB2_291
	b	.LBB2_208
.LBB2_255:
	mov	w20, wzr
	mov	w27, #202
	cbnz	x26, .LBB2_291
	b	.LBB2_208
.LBB2_256:
	mov	w19, wzr
	mov	w20, #257
	b	.LBB2_396
.LBB2_257:
	mov	w20, #1
	mov	w19, #1
	mov	w8, #1
	b	.LBB2_397
.LBB2_258:
	mov	w20, wzr
	mov	w27, #426
	cbnz	x26, .LBB2_291
	b	.LBB2_208
.LBB2_259:
	mov	w20, wzr
	mov	w27, #451
	cbnz	x26, .LBB2_291
	b	.LBB2_208
.LBB2_260:
	mov	w19, wzr
	mov	w20, #221
	b	.LBB2_396
.LBB2_261:
	mov	w19, #1
	mov	w20, #2
	mov	w8, #1
	b	.LBB2_397
.LBB2_262:
	mov	w19, wzr
	mov	w20, #200
	b	.LBB2_396
.LBB2_263:
	mov	w19, wzr
	mov	w20, #450
	b	.LBB2_396
.LBB2_264:
	mov	w19, wzr
	mov	w20, #226
	b	.LBB2_396
.LBB2_265:
	mov	w20, wzr
	mov	w27, #552
	cbnz	x26, .LBB2_291
	b	.LBB2_208
.LBB2_266:
	mov	w19, wzr
	mov	w20, #533
	b	.LBB2_396
.LBB2_267:
	mov	w19, wzr
	mov	w20, #230
	b	.LBB2_396
.LBB2_268:
	mov	w19, wzr
	mov	w20, #125
	b	.LBB2_396
.LBB2_269:
	mov	w19, wzr
	mov	w20, #232
	b	.LBB2_396
.LBB2_270:
	mov	w19, wzr
	mov	w20, #215
	b	.LBB2_396
.LBB2_271:
	mov	w19, wzr
	mov	w20, #150
	b	.LBB2_396
.LBB2_272:
	mov	w20, wzr
	mov	w27, #234
	cbnz	x26, .LBB2_291
	b	.LBB2_208
.LBB2_273:
	mov	w19, wzr
	mov	w20, #227
	b	.LBB2_396
.LBB2_274:
	mov	w19, wzr
	mov	w20, #212
	b	.LBB2_396
.LBB2_275:
	mov	w19, wzr
	mov	w20, #202
	b	.LBB2_396
.LBB2_276:
	mov	w19, wzr
	mov	w20, #426
	b	.LBB2_396
.LBB2_277:
	mov	w19, wzr
	mov	w20, #451
	b	.LBB2_396
.LBB2_278:
	mov	w20, wzr
	mov	w27, #530
	cbnz	x26, .LBB2_291
	b	.LBB2_208
.LBB2_279:
	mov	w20, wzr
	mov	w27, #229
	cbnz	x26, .LBB2_291
	b	.LBB2_208
.LBB2_280:
	mov	w20, wzr
	mov	w27, #534
	cbnz	x26, .LBB2_291
	b	.LBB2_208
.LBB2_281:
	mov	w20, wzr
	mov	w27, #250
	cbnz	x26, .LBB2_291
	b	.LBB2_208
.LBB2_282:
	mov	w20, wzr
	mov	w27, #421
	cbnz	x26, .LBB2_291
	b	.LBB2_208
.LBB2_283:
	mov	w20, wzr
	mov	w27, #425
	cbnz	x26, .LBB2_291
	b	.LBB2_208
.LBB2_284:
	mov	w19, wzr
	mov	w20, #552
	b	.LBB2_396
.LBB2_285:
	mov	w19, wzr
	mov	w20, #234
	b	.LBB2_396
.LBB2_286:
	mov	w20, wzr
	mov	w27, #504
	cbnz	x26, .LBB2_291
	b	.LBB2_208
.LBB2_287:
	mov	w19, wzr
	mov	w20, #530
	b	.LBB2_396
.LBB2_288:
	mov	w19, wzr
	mov	w20, #229
	b	.LBB2_396
.LBB2_289:
	mov	w20, wzr
	mov	w27, #332
.LBB2_290:
	cbz	x26, .LBB2_208
.LBB2_291:
	sub	x22, x26, #1
	mov	w8, #24
	cmp	w20, #0
	madd	x8, x22, x8, x24
	mov	w9, #3
	csinc	x9, x9, xzr, eq
	ldp	x28, x19, [x8]
	adds	x10, x19, #3
	csinv	x10, x10, xzr, lo
	adds	x8, x10, x9
	csinv	x1, x8, xzr, lo
	cbz	x22, .LBB2_298
	mov	x8, xzr
	add	x9, x24, #8
	sub	x10, x26, #1
	b	.LBB2_294
.LBB2_293:
	adds	x11, x11, #2
	csinv	x11, x11, xzr, lo
	add	x9, x9, #24
	adds	x8, x11, x8
	csinv	x8, x8, xzr, lo
	subs	x10, x10, #1
	b.eq	.LBB2_297
.LBB2_294:
	ldr	x11, [x9]
	cbz	x11, .LBB2_293
	ldur	x12, [x9, #-8]
	ldrb	w12, [x12]
	sub	w12, w12, #48
	cmp	w12, #9
	b.hi	.LBB2_293
	adds	x11, x11, #3
	csinv	x11, x11, xzr, lo
	add	x9, x9, #24
	adds	x8, x11, x8
	csinv	x8, x8, xzr, lo
	subs	x10, x10, #1
	b.ne	.LBB2_294
.LBB2_297:
	cmp	w20, #0
	mov	w9, #4
	mov	w10, #2
	csel	x9, x10, x9, ne
	mov	w23, wzr
	adds	x8, x8, x9
	csinv	x8, x8, xzr, lo
	adds	x8, x1, x8
	csinv	x1, x8, xzr, lo
	ldr	x8, [x21, #16]
	cmp	x1, x8
	b.ls	.LBB2_299
	b	.LBB2_367
.LBB2_298:
	mov	w23, #1
	ldr	x8, [x21, #16]
	cmp	x1, x8
	b.hi	.LBB2_367
.LBB2_299:
	str	x28, [sp, #32]
	str	w27, [sp, #40]
	str	w25, [sp, #64]
	tbz	w23, #0, .LBB2_303
.LBB2_300:
	tbz	w20, #0, .LBB2_306
	ldp	x11, x8, [x21, #8]
	ldr	w25, [sp, #64]
	ldr	w20, [sp, #40]
	cmp	x8, x11
	b.eq	.LBB2_384
.LBB2_302:
	ldr	x10, [x21]
	add	x9, x11, #1
	orr	w12, w20, #0x30
	strb	w12, [x10, x11]
	ldr	x1, [sp, #32]
	cmp	x8, x9
	stp	x10, x9, [x21]
	str	x8, [x21, #16]
	b.ne	.LBB2_308
	b	.LBB2_375
.LBB2_303:
	tbz	w20, #0, .LBB2_315
	ldp	x11, x8, [x21, #8]
	ldr	w25, [sp, #64]
	ldr	w23, [sp, #40]
	cmp	x8, x11
	b.eq	.LBB2_471
.LBB2_305:
	ldr	x10, [x21]
	add	x9, x11, #1
	orr	w12, w23, #0x30
	strb	w12, [x10, x11]
	cmp	x8, x9
	stp	x10, x9, [x21]
	str	x8, [x21, #16]
	b.ne	.LBB2_317
	b	.LBB2_382
.LBB2_306:
	ldp	x9, x8, [x21, #8]
	ldr	w25, [sp, #64]
	ldr	w20, [sp, #40]
	sub	x10, x8, x9
	cmp	x10, #2
	b.ls	.LBB2_386
.LBB2_307:
	mov	w10, #6554
	mov	w12, #656
	mov	w14, #10
	mul	w10, w20, w10
	mul	w12, w20, w12
	lsr	w11, w10, #16
	mov	w10, #103
	lsr	w12, w12, #16
	mul	w10, w11, w10
	orr	w12, w12, #0x30
	lsr	w13, w10, #10
	ldr	x10, [x21]
	msub	w13, w13, w14, w11
	msub	w11, w11, w14, w20
	add	x14, x10, x9
	add	x9, x9, #3
	strb	w12, [x14]
	orr	w12, w13, #0x30
	orr	w11, w11, #0x30
	strb	w12, [x14, #1]
	strb	w11, [x14, #2]
	ldr	x1, [sp, #32]
	cmp	x8, x9
	stp	x10, x9, [x21]
	str	x8, [x21, #16]
	b.eq	.LBB2_375
.LBB2_308:
	mov	w8, #32
	strb	w8, [x10, x9]
	add	x22, x9, #1
	ldr	x20, [x21, #16]
	str	x22, [x21, #8]
	sub	x8, x20, x22
	cmp	x19, x8
	b.hi	.LBB2_377
	ldr	x23, [x21]
	stp	xzr, xzr, [x21, #8]
	add	x8, x23, x22
	sub	x8, x8, x1
	cmp	x8, x19
	b.hs	.LBB2_379
.LBB2_310:
	cmp	x19, #8
	b.lo	.LBB2_312
	add	x8, x22, x23
	sub	x8, x8, x1
	cmp	x8, #32
	b.hs	.LBB2_365
.LBB2_312:
	mov	x8, xzr
.LBB2_313:
	add	x10, x8, x22
	sub	x9, x19, x8
	add	x8, x1, x8
	add	x10, x23, x10
.LBB2_314:
	ldrb	w11, [x8], #1
	subs	x9, x9, #1
	strb	w11, [x10], #1
	b.ne	.LBB2_314
	b	.LBB2_380
.LBB2_315:
	ldp	x9, x8, [x21, #8]
	ldr	w25, [sp, #64]
	ldr	w23, [sp, #40]
	sub	x10, x8, x9
	cmp	x10, #2
	b.ls	.LBB2_473
.LBB2_316:
	mov	w10, #6554
	mov	w12, #656
	mov	w14, #10
	mul	w10, w23, w10
	mul	w12, w23, w12
	lsr	w11, w10, #16
	mov	w10, #103
	lsr	w12, w12, #16
	mul	w10, w11, w10
	orr	w12, w12, #0x30
	lsr	w13, w10, #10
	ldr	x10, [x21]
	msub	w13, w13, w14, w11
	msub	w11, w11, w14, w23
	add	x14, x10, x9
	add	x9, x9, #3
	strb	w12, [x14]
	orr	w12, w13, #0x30
	orr	w11, w11, #0x30
	strb	w12, [x14, #1]
	strb	w11, [x14, #2]
	cmp	x8, x9
	stp	x10, x9, [x21]
	str	x8, [x21, #16]
	b.eq	.LBB2_382
.LBB2_317:
	mov	x28, xzr
	add	x27, x9, #1
	mov	w8, #45
	strb	w8, [x10, x9]
	stur	x27, [x21, #8]
	b	.LBB2_321
.LBB2_318:
	add	x0, x24, x27
	mov	x2, x23
	bl	memmove
.LBB2_319:
	add	x8, x27, x23
	str	x25, [x21, #16]
	sub	x9, x25, x8
	stp	x24, x8, [x21]
	cmp	x9, #1
	b.ls	.LBB2_341
.LBB2_320:
	add	x9, x24, x8
	adrp	x10, .Lstatic.106
	add	x10, x10, :lo12:.Lstatic.106
	sub	x10, x9, x10
	add	x27, x8, #2
	add	x28, x28, #1
	cmp	x10, #1
	mov	w10, #2573
	strh	w10, [x9]
	cmp	x28, x22
	stp	x24, x27, [x21]
	ldr	x24, [sp, #80]
	str	x25, [x21, #16]
	b.eq	.LBB2_300
.LBB2_321:
	mov	w8, #24
	madd	x8, x28, x8, x24
	ldp	x1, x23, [x8]
	cbz	x23, .LBB2_331
	ldrb	w8, [x1]
	ldr	x25, [x21, #16]
	sub	w8, w8, #48
	cmp	w8, #9
	b.hi	.LBB2_332
	cmp	x25, x27
	b.eq	.LBB2_361
.LBB2_324:
	ldr	x8, [x21]
	mov	w9, #32
	strb	w9, [x8, x27]
	add	x27, x27, #1
	ldr	x25, [x21, #16]
	str	x27, [x21, #8]
	sub	x8, x25, x27
	cmp	x23, x8
	b.hi	.LBB2_363
	ldr	x24, [x21]
	stp	xzr, xzr, [x21, #8]
	add	x8, x24, x27
	sub	x8, x8, x1
	cmp	x8, x23
	b.hs	.LBB2_318
.LBB2_326:
	cmp	x23, #8
	b.lo	.LBB2_328
	add	x8, x27, x24
	sub	x8, x8, x1
	cmp	x8, #32
	b.hs	.LBB2_352
.LBB2_328:
	mov	x8, xzr
.LBB2_329:
	add	x10, x8, x27
	sub	x9, x23, x8
	add	x8, x1, x8
	add	x10, x24, x10
.LBB2_330:
	ldrb	w11, [x8], #1
	subs	x9, x9, #1
	strb	w11, [x10], #1
	b.ne	.LBB2_330
	b	.LBB2_319
.LBB2_331:
	ldr	x25, [x21, #16]
.LBB2_332:
	sub	x8, x25, x27
	cmp	x23, x8
	b.hi	.LBB2_350
	ldr	x24, [x21]
	stp	xzr, xzr, [x21, #8]
	add	x8, x24, x27
	sub	x8, x8, x1
	cmp	x8, x23
	b.hs	.LBB2_318
.LBB2_334:
	cmp	x23, #8
	b.lo	.LBB2_336
	add	x8, x27, x24
	sub	x8, x8, x1
	cmp	x8, #32
	b.hs	.LBB2_339
.LBB2_336:
	mov	x8, xzr
.LBB2_337:
	add	x10, x8, x27
	sub	x9, x23, x8
	add	x8, x1, x8
	add	x10, x24, x10
.LBB2_338:
	ldrb	w11, [x8], #1
	subs	x9, x9, #1
	strb	w11, [x10], #1
	b.ne	.LBB2_338
	b	.LBB2_319
.LBB2_339:
	cmp	x23, #32
	b.hs	.LBB2_343
	mov	x8, xzr
	b	.LBB2_347
.LBB2_341:
	mov	x0, x21
	mov	w1, #2
	bl	"std_alloc::vec::Vec::grow_amortized::<#79675877bf17c286>"
	cbz	w0, .LBB2_1209
	ldp	x8, x25, [x21, #8]
	ldr	x24, [x21]
	b	.LBB2_320
.LBB2_343:
	add	x11, x24, x27
	and	x9, x23, #0x18
	and	x8, x23, #0xffffffffffffffe0
	add	x10, x1, #16
	add	x11, x11, #16
	and	x12, x23, #0xffffffffffffffe0
.LBB2_344:
	ldp	q0, q1, [x10, #-16]
	subs	x12, x12, #32
	add	x10, x10, #32
	stp	q0, q1, [x11, #-16]
	add	x11, x11, #32
	b.ne	.LBB2_344
	cmp	x23, x8
	b.eq	.LBB2_319
	cbz	x9, .LBB2_337
.LBB2_347:
	mov	x10, x8
	and	x8, x23, #0xfffffffffffffff8
	add	x11, x27, x10
	sub	x9, x10, x8
	add	x10, x1, x10
	add	x11, x24, x11
.LBB2_348:
	ldr	d0, [x10], #8
	adds	x9, x9, #8
	str	d0, [x11], #8
	b.ne	.LBB2_348
	cmp	x23, x8
	b.eq	.LBB2_319
	b	.LBB2_337
.LBB2_350:
	mov	x24, x1
	mov	x0, x21
	mov	x1, x23
	bl	"std_alloc::vec::Vec::grow_amortized::<#79675877bf17c286>"
	cbz	w0, .LBB2_1209
	ldp	x27, x25, [x21, #8]
	mov	x1, x24
	ldr	x24, [x21]
	stp	xzr, xzr, [x21, #8]
	add	x8, x24, x27
	sub	x8, x8, x1
	cmp	x8, x23
	b.hs	.LBB2_318
	b	.LBB2_334
.LBB2_352:
	cmp	x23, #32
	b.hs	.LBB2_354
	mov	x8, xzr
	b	.LBB2_358
.LBB2_354:
	add	x11, x24, x27
	and	x9, x23, #0x18
	and	x8, x23, #0xffffffffffffffe0
	add	x10, x1, #16
	add	x11, x11, #16
	and	x12, x23, #0xffffffffffffffe0
.LBB2_355:
	ldp	q0, q1, [x10, #-16]
	subs	x12, x12, #32
	add	x10, x10, #32
	stp	q0, q1, [x11, #-16]
	add	x11, x11, #32
	b.ne	.LBB2_355
	cmp	x23, x8
	b.eq	.LBB2_319
	cbz	x9, .LBB2_329
.LBB2_358:
	mov	x10, x8
	and	x8, x23, #0xfffffffffffffff8
	add	x11, x27, x10
	sub	x9, x10, x8
	add	x10, x1, x10
	add	x11, x24, x11
.LBB2_359:
	ldr	d0, [x10], #8
	adds	x9, x9, #8
	str	d0, [x11], #8
	b.ne	.LBB2_359
	cmp	x23, x8
	b.eq	.LBB2_319
	b	.LBB2_329
.LBB2_361:
	mov	x24, x1
	mov	x0, x21
	mov	w1, #1
	bl	"std_alloc::vec::Vec::grow_amortized::<#79675877bf17c286>"
	cbz	w0, .LBB2_1209
	ldur	x27, [x21, #8]
	mov	x1, x24
	b	.LBB2_324
.LBB2_363:
	mov	x24, x1
	mov	x0, x21
	mov	x1, x23
	bl	"std_alloc::vec::Vec::grow_amortized::<#79675877bf17c286>"
	cbz	w0, .LBB2_1209
	ldp	x27, x25, [x21, #8]
	mov	x1, x24
	ldr	x24, [x21]
	stp	xzr, xzr, [x21, #8]
	add	x8, x24, x27
	sub	x8, x8, x1
	cmp	x8, x23
	b.hs	.LBB2_318
	b	.LBB2_326
.LBB2_365:
	cmp	x19, #32
	b.hs	.LBB2_368
	mov	x8, xzr
	b	.LBB2_372
.LBB2_367:
	mov	x0, x21
	bl	"std_alloc::vec::Vec::grow_amortized::<#79675877bf17c286>"
	cbnz	w0, .LBB2_299
	b	.LBB2_1250
.LBB2_368:
	add	x11, x23, x22
	and	x9, x19, #0x18
	and	x8, x19, #0xffffffffffffffe0
	add	x10, x1, #16
	add	x11, x11, #16
	and	x12, x19, #0xffffffffffffffe0
.LBB2_369:
	ldp	q0, q1, [x10, #-16]
	subs	x12, x12, #32
	add	x10, x10, #32
	stp	q0, q1, [x11, #-16]
	add	x11, x11, #32
	b.ne	.LBB2_369
	cmp	x19, x8
	b.eq	.LBB2_380
	cbz	x9, .LBB2_313
.LBB2_372:
	mov	x10, x8
	and	x8, x19, #0xfffffffffffffff8
	add	x11, x22, x10
	sub	x9, x10, x8
	add	x10, x1, x10
	add	x11, x23, x11
.LBB2_373:
	ldr	d0, [x10], #8
	adds	x9, x9, #8
	str	d0, [x11], #8
	b.ne	.LBB2_373
	cmp	x19, x8
	b.eq	.LBB2_380
	b	.LBB2_313
.LBB2_375:
	mov	x20, x1
	mov	x0, x21
	mov	w1, #1
	bl	"std_alloc::vec::Vec::grow_amortized::<#79675877bf17c286>"
	cbz	w0, .LBB2_1250
	ldp	x10, x9, [x21]
	mov	x1, x20
	b	.LBB2_308
.LBB2_377:
	mov	x23, x1
	mov	x0, x21
	mov	x1, x19
	bl	"std_alloc::vec::Vec::grow_amortized::<#79675877bf17c286>"
	cbz	w0, .LBB2_1250
	ldp	x22, x20, [x21, #8]
	mov	x1, x23
	ldr	x23, [x21]
	stp	xzr, xzr, [x21, #8]
	add	x8, x23, x22
	sub	x8, x8, x1
	cmp	x8, x19
	b.lo	.LBB2_310
.LBB2_379:
	add	x0, x23, x22
	mov	x2, x19
	bl	memmove
.LBB2_380:
	add	x8, x22, x19
	str	x20, [x21, #16]
	sub	x9, x20, x8
	stp	x23, x8, [x21]
	cmp	x9, #1
	b.hi	.LBB2_431
	mov	x0, x21
	mov	w1, #2
	bl	"std_alloc::vec::Vec::grow_amortized::<#79675877bf17c286>"
	cbnz	w0, .LBB2_450
	b	.LBB2_1250
.LBB2_382:
	mov	x0, x21
	mov	w1, #1
	bl	"std_alloc::vec::Vec::grow_amortized::<#79675877bf17c286>"
	cbz	w0, .LBB2_1250
	ldp	x10, x9, [x21]
	b	.LBB2_317
.LBB2_384:
	mov	x0, x21
	mov	w1, #1
	bl	"std_alloc::vec::Vec::grow_amortized::<#79675877bf17c286>"
	cbz	w0, .LBB2_1250
	ldp	x11, x8, [x21, #8]
	b	.LBB2_302
.LBB2_386:
	mov	x0, x21
	mov	w1, #3
	bl	"std_alloc::vec::Vec::grow_amortized::<#79675877bf17c286>"
	cbz	w0, .LBB2_1250
	ldp	x9, x8, [x21, #8]
	b	.LBB2_307
.LBB2_388:
	mov	w19, wzr
	mov	w20, #534
	b	.LBB2_396
.LBB2_389:
	mov	w19, wzr
	mov	w20, #250
	b	.LBB2_396
.LBB2_390:
	mov	w19, wzr
	mov	w20, #421
	b	.LBB2_396
.LBB2_391:
	mov	w19, wzr
	mov	w20, #425
	b	.LBB2_396
.LBB2_392:
	mov	w19, wzr
	mov	w20, #504
	b	.LBB2_396
.LBB2_393:
	mov	w19, wzr
	mov	w20, #332
	b	.LBB2_396
.LBB2_394:
	mov	w20, wzr
	mov	w27, #553
	cbnz	x26, .LBB2_291
	b	.LBB2_208
.LBB2_395:
	mov	w19, wzr
	mov	w20, #553
.LBB2_396:
	mov	w8, #3
.LBB2_397:
	adds	x9, x26, #3
	mov	w10, #2
	csinv	x9, x9, xzr, lo
	cmp	x26, #0
	csel	x9, x10, x9, eq
	adds	x8, x9, x8
	ldr	x9, [x21, #16]
	csinv	x1, x8, xzr, lo
	cmp	x1, x9
	b.hi	.LBB2_417
.LBB2_398:
	tbz	w19, #0, .LBB2_409
	ldp	x10, x8, [x21, #8]
	cmp	x8, x10
	b.eq	.LBB2_451
.LBB2_400:
	ldr	x23, [x21]
	add	x9, x10, #1
	orr	w11, w20, #0x30
	strb	w11, [x23, x10]
	stp	x23, x9, [x21]
	str	x8, [x21, #16]
	cbz	x26, .LBB2_411
.LBB2_401:
	cmp	x8, x9
	b.eq	.LBB2_425
.LBB2_402:
	mov	w8, #32
	strb	w8, [x23, x9]
	add	x19, x9, #1
	ldr	x20, [x21, #16]
	str	x19, [x21, #8]
	sub	x8, x20, x19
	cmp	x26, x8
	b.hi	.LBB2_427
	ldr	x23, [x21]
	stp	xzr, xzr, [x21, #8]
	add	x8, x23, x19
	sub	x8, x8, x24
	cmp	x8, x26
	b.hs	.LBB2_429
.LBB2_404:
	cmp	x26, #8
	b.lo	.LBB2_406
	add	x8, x19, x23
	sub	x8, x8, x24
	cmp	x8, #32
	b.hs	.LBB2_415
.LBB2_406:
	mov	x8, xzr
.LBB2_407:
	add	x10, x8, x19
	sub	x9, x26, x8
	add	x8, x24, x8
	add	x10, x23, x10
.LBB2_408:
	ldrb	w11, [x8], #1
	subs	x9, x9, #1
	strb	w11, [x10], #1
	b.ne	.LBB2_408
	b	.LBB2_430
.LBB2_409:
	ldp	x9, x8, [x21, #8]
	sub	x10, x8, x9
	cmp	x10, #2
	b.ls	.LBB2_453
.LBB2_410:
	mov	w10, #6554
	mov	w11, #103
	mov	w12, #656
	mul	w10, w20, w10
	mov	w13, #10
	ldr	x23, [x21]
	mul	w12, w20, w12
	lsr	w10, w10, #16
	lsr	w12, w12, #16
	mul	w11, w10, w11
	orr	w12, w12, #0x30
	lsr	w11, w11, #10
	msub	w11, w11, w13, w10
	msub	w10, w10, w13, w20
	add	x13, x23, x9
	add	x9, x9, #3
	strb	w12, [x13]
	orr	w11, w11, #0x30
	orr	w10, w10, #0x30
	strb	w11, [x13, #1]
	strb	w10, [x13, #2]
	stp	x23, x9, [x21]
	str	x8, [x21, #16]
	cbnz	x26, .LBB2_401
.LBB2_411:
	sub	x10, x8, x9
	cmp	x10, #1
	b.ls	.LBB2_455
.LBB2_412:
	add	x10, x23, x9
	adrp	x11, .Lstatic.106
	add	x11, x11, :lo12:.Lstatic.106
	sub	x11, x10, x11
	add	x19, x9, #2
	mov	x26, xzr
	cmp	x11, #1
	mov	w11, #2573
	strh	w11, [x10]
	stp	x23, x19, [x21]
	str	x8, [x21, #16]
	cbnz	x19, .LBB2_432
.LBB2_413:
	str	xzr, [sp, #64]
	mov	w28, wzr
	mov	x23, xzr
	stp	xzr, xzr, [sp, #32]
	mov	w24, wzr
	mov	w22, wzr
	stp	xzr, xzr, [sp, #16]
	mov	x19, xzr
.LBB2_414:
	movi	v0.2d, #0000000000000000
	mov	x20, xzr
	str	xzr, [sp, #704]
	mov	w27, #1
	str	q0, [sp, #1072]
	str	q0, [sp, #1056]
	str	q0, [sp, #1040]
	stp	q0, q0, [sp, #672]
	cbnz	w25, .LBB2_439
	b	.LBB2_447
.LBB2_415:
	cmp	x26, #32
	b.hs	.LBB2_418
	mov	x8, xzr
	b	.LBB2_422
.LBB2_417:
	mov	x0, x21
	bl	"std_alloc::vec::Vec::grow_amortized::<#79675877bf17c286>"
	cbnz	w0, .LBB2_398
	b	.LBB2_1249
.LBB2_418:
	add	x11, x23, x19
	and	x9, x26, #0x18
	and	x8, x26, #0xffffffffffffffe0
	add	x10, x24, #16
	add	x11, x11, #16
	and	x12, x26, #0xffffffffffffffe0
.LBB2_419:
	ldp	q0, q1, [x10, #-16]
	subs	x12, x12, #32
	add	x10, x10, #32
	stp	q0, q1, [x11, #-16]
	add	x11, x11, #32
	b.ne	.LBB2_419
	cmp	x26, x8
	b.eq	.LBB2_430
	cbz	x9, .LBB2_407
.LBB2_422:
	mov	x10, x8
	and	x8, x26, #0xfffffffffffffff8
	add	x11, x19, x10
	sub	x9, x10, x8
	add	x10, x24, x10
	add	x11, x23, x11
.LBB2_423:
	ldr	d0, [x10], #8
	adds	x9, x9, #8
	str	d0, [x11], #8
	b.ne	.LBB2_423
	cmp	x26, x8
	b.eq	.LBB2_430
	b	.LBB2_407
.LBB2_425:
	mov	x0, x21
	mov	w1, #1
	bl	"std_alloc::vec::Vec::grow_amortized::<#79675877bf17c286>"
	cbz	w0, .LBB2_1249
	ldp	x23, x9, [x21]
	b	.LBB2_402
.LBB2_427:
	mov	x0, x21
	mov	x1, x26
	bl	"std_alloc::vec::Vec::grow_amortized::<#79675877bf17c286>"
	cbz	w0, .LBB2_1249
	ldp	x19, x20, [x21, #8]
	ldr	x23, [x21]
	stp	xzr, xzr, [x21, #8]
	add	x8, x23, x19
	sub	x8, x8, x24
	cmp	x8, x26
	b.lo	.LBB2_404
.LBB2_429:
	add	x0, x23, x19
	mov	x1, x24
	mov	x2, x26
	bl	memmove
.LBB2_430:
	add	x8, x19, x26
	str	x20, [x21, #16]
	sub	x9, x20, x8
	stp	x23, x8, [x21]
	cmp	x9, #1
	b.ls	.LBB2_449
.LBB2_431:
	add	x9, x23, x8
	adrp	x10, .Lstatic.106
	add	x10, x10, :lo12:.Lstatic.106
	sub	x10, x9, x10
	add	x19, x8, #2
	cmp	x10, #1
	mov	w10, #2573
	strh	w10, [x9]
	stp	x23, x19, [x21]
	str	x20, [x21, #16]
	cbz	x19, .LBB2_413
.LBB2_432:
	mov	w0, #1
	mov	x1, x23
	mov	x2, x19
	bl	write
	tbnz	x0, #63, .LBB2_436
	cbz	x0, .LBB2_437
	cmp	x0, x19
	csel	x8, x0, x19, lo
	subs	x19, x19, x8
	add	x23, x23, x8
	b.ne	.LBB2_432
	mov	w28, wzr
	mov	x23, xzr
	mov	w24, wzr
	mov	w22, wzr
	str	xzr, [sp, #64]
	stp	xzr, xzr, [sp, #32]
	stp	xzr, xzr, [sp, #16]
	b	.LBB2_414
.LBB2_436:
	bl	rattle_errno
	mov	w1, w0
	add	x0, sp, #1248
	bl	"std_io::io::error::Error::from_raw_os_error"
	add	x8, sp, #1248
	add	x13, sp, #1160
	ldrh	w10, [sp, #1270]
	ldur	q0, [x8, #40]
	ldur	q1, [x8, #56]
	ldur	w9, [x13, #98]
	ldur	w11, [x13, #106]
	ldrh	w12, [sp, #1278]
	mov	w19, #1
	stp	q0, q1, [sp, #896]
	ldur	q0, [x8, #72]
	ldrh	w8, [sp, #1262]
	ldur	w13, [x13, #114]
	ldr	x20, [sp, #1248]
	ldrb	w22, [sp, #1256]
	orr	x23, x9, x8, lsl #32
	ldrb	w8, [sp, #1264]
	str	q0, [sp, #928]
	movi	v0.2d, #0000000000000000
	ldrb	w24, [sp, #1257]
	ldrb	w28, [sp, #1265]
	str	w8, [sp, #16]
	orr	x8, x11, x10, lsl #32
	str	xzr, [sp, #800]
	str	x8, [sp, #24]
	orr	x8, x13, x12, lsl #32
	stp	q0, q0, [sp, #768]
	str	x8, [sp, #40]
	ldrb	w8, [sp, #1272]
	str	w8, [sp, #20]
	ldrb	w8, [sp, #1273]
	str	x8, [sp, #32]
	ldr	x8, [sp, #1280]
	str	x8, [sp, #64]
	b	.LBB2_438
.LBB2_437:
	movi	v0.2d, #0000000000000000
	str	xzr, [sp, #64]
	mov	w28, wzr
	stp	xzr, xzr, [sp, #32]
	mov	x23, xzr
	mov	w24, wzr
	stp	xzr, xzr, [sp, #16]
	mov	w22, wzr
	mov	x20, xzr
	str	xzr, [sp, #800]
	mov	w19, #2
	str	q0, [sp, #896]
	stp	q0, q0, [sp, #768]
	stp	q0, q0, [sp, #912]
.LBB2_438:
	ldp	q0, q1, [sp, #896]
	mov	w27, wzr
	ldr	q2, [sp, #928]
	ldr	x8, [sp, #800]
	str	q0, [sp, #1040]
	str	q1, [sp, #1056]
	ldp	q0, q1, [sp, #768]
	str	q2, [sp, #1072]
	str	x8, [sp, #704]
	stp	q0, q1, [sp, #672]
	cbz	w25, .LBB2_447
.LBB2_439:
	cmp	w25, #2
	b.ne	.LBB2_445
	cbz	x26, .LBB2_445
	ldr	x8, [sp, #80]
	add	x25, x8, #16
	b	.LBB2_443
.LBB2_442:
	subs	x26, x26, #1
	add	x25, x25, #24
	b.eq	.LBB2_445
.LBB2_443:
	ldr	x8, [x25]
	cbz	x8, .LBB2_442
	ldur	x0, [x25, #-16]
	bl	rattle_dealloc
	b	.LBB2_442
.LBB2_445:
	ldr	x8, [sp, #72]
	cbz	x8, .LBB2_447
	ldr	x0, [sp, #80]
	bl	rattle_dealloc
.LBB2_447:
	ldr	q0, [sp, #1040]
	ldr	q1, [sp, #1056]
	add	x9, sp, #288
	ldr	q2, [sp, #1072]
	ldr	x8, [sp, #704]
	stp	q0, q1, [sp, #288]
	ldp	q0, q1, [sp, #672]
	str	q2, [sp, #320]
	stur	x8, [x9, #80]
	stp	q0, q1, [x9, #48]
	tbz	w27, #0, .LBB2_1193
	ldp	q0, q1, [sp, #512]
	ldr	x8, [sp, #560]
	ldp	x26, x28, [sp, #48]
	ldr	q2, [sp, #544]
	str	x8, [sp, #176]
	stp	q0, q1, [sp, #128]
	ldp	q0, q1, [sp, #480]
	ldrb	w8, [x28]
	str	q2, [sp, #160]
	stp	q0, q1, [sp, #96]
	tbz	w8, #0, .LBB2_1
	b	.LBB2_1208
.LBB2_449:
	mov	x0, x21
	mov	w1, #2
	bl	"std_alloc::vec::Vec::grow_amortized::<#79675877bf17c286>"
	cbz	w0, .LBB2_1249
.LBB2_450:
	ldp	x8, x20, [x21, #8]
	ldr	x23, [x21]
	b	.LBB2_431
.LBB2_451:
	mov	x0, x21
	mov	w1, #1
	bl	"std_alloc::vec::Vec::grow_amortized::<#79675877bf17c286>"
	cbz	w0, .LBB2_1249
	ldp	x10, x8, [x21, #8]
	b	.LBB2_400
.LBB2_453:
	mov	x0, x21
	mov	w1, #3
	bl	"std_alloc::vec::Vec::grow_amortized::<#79675877bf17c286>"
	cbz	w0, .LBB2_1249
	ldp	x9, x8, [x21, #8]
	b	.LBB2_410
.LBB2_455:
	mov	x0, x21
	mov	w1, #2
	bl	"std_alloc::vec::Vec::grow_amortized::<#79675877bf17c286>"
	cbz	w0, .LBB2_1248
	ldp	x9, x8, [x21, #8]
	ldr	x23, [x21]
	b	.LBB2_412
.LBB2_457:
	add	x12, x12, #8
	sub	x14, x11, x12
	cmp	x14, #4
	b.hs	.LBB2_193
.LBB2_458:
	cmp	x12, x11
	b.lo	.LBB2_476
	b	.LBB2_1197
.LBB2_459:
	stp	q0, q1, [x8]
.LBB2_460:
	movi	v0.2d, #0000000000000000
	mov	w0, #192
	mov	w1, #8
	str	xzr, [sp, #1360]
	str	q0, [sp, #1248]
	str	q0, [sp, #1264]
	str	q0, [sp, #1280]
	str	q0, [sp, #1296]
	str	q0, [sp, #1312]
	str	q0, [sp, #1328]
	str	q0, [sp, #1344]
	bl	rattle_alloc
	tbz	w0, #0, .LBB2_464
	adrp	x8, .LCPI2_16
	mov	x22, x1
	str	x1, [sp, #1160]
	ldr	q0, [x8, :lo12:.LCPI2_16]
	add	x8, sp, #1160
	mov	w0, #21
	mov	w1, #1
	stur	q0, [x8, #8]
	bl	rattle_alloc
	tbz	w0, #0, .LBB2_1012
	adrp	x8, .Lstatic.68
	add	x8, x8, :lo12:.Lstatic.68
	sub	x8, x1, x8
	sub	x8, x8, #16
	cmp	x8, #20
	b.hi	.LBB2_562
	adrp	x8, .LCPI2_17
	adrp	x9, .LCPI2_18
	ldr	q0, [x8, :lo12:.LCPI2_17]
	ldr	d1, [x9, :lo12:.LCPI2_18]
	mov	w8, #58
	strb	w8, [x1, #20]
	str	q0, [x1]
	str	s1, [x1, #16]
	b	.LBB2_563
.LBB2_464:
	str	xzr, [sp, #1152]
	movi	v0.2d, #0000000000000000
	b	.LBB2_1014
.LBB2_465:
	mov	w8, #101
	mov	w9, #31042
	strb	w8, [x24, #2]
	strh	w9, [x24]
.LBB2_466:
	movi	v0.2d, #0000000000000000
	add	x10, sp, #896
	mov	w12, wzr
	mov	w14, #1
	mov	w13, #15
	mov	w26, #3
	stur	q0, [x10, #120]
.LBB2_467:
	stur	q0, [x10, #104]
	stur	q0, [x10, #88]
	stur	q0, [x10, #72]
	stur	q0, [x10, #56]
	stur	q0, [x10, #40]
.LBB2_468:
	mov	x8, xzr
	str	xzr, [sp, #64]
	b	.LBB2_49
.LBB2_469:
	movi	v0.2d, #0000000000000000
	stp	q0, q0, [x29, #-128]
	stp	q0, q0, [x29, #-96]
	stp	q0, q0, [x29, #-64]
	b	.LBB2_603
.LBB2_470:
	mov	x0, x24
	mov	x1, x19
	mov	x2, x26
	bl	memcpy
	b	.LBB2_505
.LBB2_471:
	mov	x0, x21
	mov	w1, #1
	bl	"std_alloc::vec::Vec::grow_amortized::<#79675877bf17c286>"
	cbz	w0, .LBB2_1250
	ldp	x11, x8, [x21, #8]
	b	.LBB2_305
.LBB2_473:
	mov	x0, x21
	mov	w1, #3
	bl	"std_alloc::vec::Vec::grow_amortized::<#79675877bf17c286>"
	cbz	w0, .LBB2_1250
	ldp	x9, x8, [x21, #8]
	b	.LBB2_316
.LBB2_475:
	add	x12, x12, #4
	cmp	x12, x11
	b.hs	.LBB2_1197
.LBB2_476:
	ldrb	w14, [x13, x12]
	cmp	w14, #10
	b.eq	.LBB2_478
	add	x12, x12, #1
	cmp	x12, x11
	b.lo	.LBB2_476
	b	.LBB2_1196
.LBB2_478:
	mov	w14, #1
	mov	w15, #1
	b	.LBB2_5
.LBB2_479:
	ldr	x9, [x8]
	ldur	x8, [x8, #7]
	str	x9, [x24]
	stur	x8, [x24, #7]
.LBB2_480:
	movi	v0.2d, #0000000000000000
	mov	x10, x25
	mov	x0, x22
	mov	w12, wzr
	mov	w15, #15
	mov	w20, #9217
	add	x8, sp, #896
.LBB2_481:
	str	q0, [sp, #1328]
	str	q0, [sp, #1312]
	str	q0, [sp, #1296]
	str	q0, [sp, #1280]
	str	q0, [sp, #1264]
	str	q0, [sp, #1248]
	ldr	x9, [sp, #72]
	cbz	x9, .LBB2_483
	mov	x22, x15
	mov	w23, w12
	bl	rattle_dealloc
	mov	w12, w23
	mov	x15, x22
	mov	x10, x25
	add	x8, sp, #896
.LBB2_483:
	cbz	x10, .LBB2_485
	mov	x0, x19
	mov	x23, x15
	mov	w22, w12
	bl	rattle_dealloc
	mov	w12, w22
	mov	x15, x23
	add	x8, sp, #896
.LBB2_485:
	ldr	q0, [sp, #1248]
	ldr	q1, [sp, #1264]
	lsr	x13, x20, #8
	and	x14, x20, #0xff
	add	x10, sp, #896
	stur	q0, [x8, #40]
	ldr	q0, [sp, #1328]
	stur	q1, [x8, #56]
	ldr	q1, [sp, #1312]
	stur	q0, [x8, #120]
	ldr	q0, [sp, #1296]
	stur	q1, [x8, #104]
	ldr	q1, [sp, #1280]
	stur	q0, [x8, #88]
	stur	q1, [x8, #72]
	ldr	x8, [sp, #936]
	stp	x8, x15, [sp, #64]
.LBB2_486:
	ldp	q0, q1, [x10, #80]
	mov	x8, xzr
	ldur	q2, [x10, #112]
	ldur	x9, [x10, #128]
	mov	x26, x15
	stp	q0, q1, [sp, #800]
	ldp	q0, q1, [x10, #48]
	str	q2, [sp, #832]
	b	.LBB2_50
.LBB2_487:
	and	x10, x27, #0xc
	and	x8, x27, #0x30
	mov	x11, x22
	and	x12, x27, #0x30
.LBB2_488:
	ldr	q0, [x11], #16
	subs	x12, x12, #16
	str	q0, [x9], #16
	b.ne	.LBB2_488
	cmp	x27, x8
	mov	x24, x13
	b.eq	.LBB2_496
	cbz	x10, .LBB2_494
.LBB2_491:
	mov	x10, x8
	and	x8, x27, #0x3c
	add	x11, x10, x23
	sub	x9, x10, x8
	add	x10, x22, x10
	add	x11, x24, x11
.LBB2_492:
	ldr	w12, [x10], #4
	adds	x9, x9, #4
	str	w12, [x11], #4
	b.ne	.LBB2_492
	cmp	x27, x8
	b.eq	.LBB2_496
.LBB2_494:
	add	x10, x8, x23
	sub	x9, x27, x8
	add	x8, x22, x8
	add	x10, x24, x10
.LBB2_495:
	ldrb	w11, [x8], #1
	subs	x9, x9, #1
	strb	w11, [x10], #1
	b.ne	.LBB2_495
.LBB2_496:
	ldr	x8, [sp, #1264]
	add	x26, x23, x27
	cmp	w20, #6
	str	x8, [sp, #72]
	b.eq	.LBB2_559
	b	.LBB2_561
.LBB2_497:
	mov	w9, #25928
	mov	w8, #58
	movk	w9, #28780, lsl #16
	strb	w8, [x1, #4]
	str	w9, [x1]
.LBB2_498:
	mov	w8, #5
	str	x1, [x24]
	mov	w0, #27
	dup	v0.2d, x8
	mov	w1, #1
	stur	q0, [x24, #8]
	bl	rattle_alloc
	mov	x19, x0
	tbz	w19, #0, .LBB2_598
	sub	x8, x1, x20
	sub	x8, x8, #53
	cmp	x8, #27
	b.hs	.LBB2_594
	adrp	x8, .LCPI2_12
	adrp	x9, .LCPI2_13
	mov	w10, #11828
	ldr	q0, [x8, :lo12:.LCPI2_12]
	ldr	d1, [x9, :lo12:.LCPI2_13]
	mov	w8, #48
	strh	w10, [x1, #24]
	str	q0, [x1]
	str	d1, [x1, #16]
	strb	w8, [x1, #26]
	b	.LBB2_595
.LBB2_501:
	movi	d0, #0000000000000000
	and	x8, x25, #0x10000
	adrp	x9, .LCPI2_10
	fmov	d1, x8
	adrp	x8, .LCPI2_9
	ldr	d2, [x9, :lo12:.LCPI2_10]
	and	x10, x26, #0x18
	cmp	x10, #16
	cmeq	d0, d1, d0
	ldr	d1, [x8, :lo12:.LCPI2_9]
	bsl	v0.8b, v2.8b, v1.8b
	ldr	d1, [x19]
	stp	d1, d0, [x24]
	b.eq	.LBB2_503
	tst	x25, #0x10000
	csel	x8, x22, x20, eq
	ldr	d0, [x8, #16]
	str	d0, [x24, #16]
.LBB2_503:
	sub	x8, x26, x10
	add	x9, x19, x10
	add	x10, x24, x10
.LBB2_504:
	ldrb	w11, [x9], #1
	subs	x8, x8, #1
	strb	w11, [x10], #1
	b.ne	.LBB2_504
.LBB2_505:
	movi	v0.2d, #0000000000000000
	tst	x25, #0x10000
	mov	w8, #1793
	mov	w9, #9729
	mov	w12, wzr
	b	.LBB2_521
.LBB2_506:
	and	x9, x26, #0xc
	and	x8, x26, #0x30
	add	x10, x19, #8
	mov	x20, x1
	add	x11, x1, #8
	and	x12, x26, #0x30
.LBB2_507:
	ldp	d0, d1, [x10, #-8]
	subs	x12, x12, #16
	add	x10, x10, #16
	stp	d0, d1, [x11, #-8]
	add	x11, x11, #16
	b.ne	.LBB2_507
	cbz	x9, .LBB2_512
	sub	x9, x26, #2
	add	x10, x19, x8
	sub	x9, x9, x8
	add	x8, x20, x8
.LBB2_510:
	ldr	w11, [x10], #4
	subs	x9, x9, #4
	str	w11, [x8], #4
	b.ne	.LBB2_510
	sub	x8, x26, #2
.LBB2_512:
	sub	x9, x26, x8
	add	x10, x19, x8
	add	x8, x20, x8
.LBB2_513:
	ldrb	w11, [x10], #1
	subs	x9, x9, #1
	strb	w11, [x8], #1
	b.ne	.LBB2_513
	b	.LBB2_520
.LBB2_514:
	and	x9, x26, #0x30
	mov	x20, x1
	mov	x8, x1
	mov	x10, x19
	and	x11, x26, #0x30
.LBB2_515:
	ldr	q0, [x10], #16
	subs	x11, x11, #16
	str	q0, [x8], #16
	b.ne	.LBB2_515
	mov	w8, #52
	add	x11, x19, x9
	and	x8, x26, x8
	sub	x10, x8, x9
	add	x9, x20, x9
.LBB2_517:
	ldr	w12, [x11], #4
	subs	x10, x10, #4
	str	w12, [x9], #4
	b.ne	.LBB2_517
.LBB2_518:
	sub	x9, x26, x8
	add	x10, x19, x8
	add	x8, x20, x8
.LBB2_519:
	ldrb	w11, [x10], #1
	subs	x9, x9, #1
	strb	w11, [x8], #1
	b.ne	.LBB2_519
.LBB2_520:
	movi	v0.2d, #0000000000000000
	cmp	x24, #0
	mov	w8, #9729
	mov	w9, #1793
	mov	w12, wzr
	mov	x24, x20
.LBB2_521:
	csel	x9, x9, x8, eq
.LBB2_522:
	str	q0, [sp, #1328]
	str	q0, [sp, #1312]
	str	q0, [sp, #1296]
	str	q0, [sp, #1280]
	str	q0, [sp, #1264]
	str	q0, [sp, #1248]
	ldr	q0, [sp, #1328]
	ldr	q1, [sp, #1312]
	add	x11, sp, #896
	ldr	q2, [sp, #1280]
	mov	x8, xzr
	stur	q0, [x11, #120]
	ldr	q0, [sp, #1264]
	stur	q1, [x11, #104]
	ldr	q1, [sp, #1248]
	ldur	x10, [x11, #128]
	stur	q2, [x11, #72]
	ldr	q2, [sp, #1296]
	stur	q0, [x11, #56]
	stur	q1, [x11, #40]
	ldp	q1, q0, [x11, #48]
	stur	q2, [x11, #88]
	ldur	q2, [x11, #80]
	str	x10, [sp, #848]
	stp	q1, q0, [sp, #768]
	ldp	q1, q0, [x11, #96]
	b	.LBB2_605
.LBB2_523:
	subs	x1, x19, #4
	b.hi	.LBB2_608
.LBB2_524:
	mov	x0, x22
	mov	x1, x19
	bl	"unftp_control_codecs::line_parser::parser::any_verb_len"
	mov	x25, x0
.LBB2_525:
	add	x8, x25, #1
	cmp	x19, x25
	sub	x8, x19, x8
	cinc	x9, x25, ne
	csel	x19, xzr, x8, eq
	cmp	x25, #3
	add	x20, x22, x9
	b.ne	.LBB2_628
	ldrb	w8, [x22]
	b	.LBB2_615
.LBB2_527:
	mov	w25, #5
.LBB2_528:
	mov	x16, xzr
	adrp	x24, .Lstatic.2
	add	x24, x24, :lo12:.Lstatic.2
	stur	wzr, [x28, #195]
	str	wzr, [sp, #672]
	movi	v0.2d, #0000000000000000
	stp	q0, q0, [sp, #896]
	cbnz	x19, .LBB2_630
	b	.LBB2_646
.LBB2_529:
	adrp	x22, .Lstatic.104
	add	x22, x22, :lo12:.Lstatic.104
	b	.LBB2_540
.LBB2_530:
	mov	w27, wzr
	adrp	x22, .Lstatic.98
	add	x22, x22, :lo12:.Lstatic.98
	mov	w23, #37
	b	.LBB2_542
.LBB2_531:
	mov	w27, wzr
	adrp	x22, .Lstatic.103
	add	x22, x22, :lo12:.Lstatic.103
	mov	w23, #32
	b	.LBB2_542
.LBB2_532:
	mov	w27, wzr
	adrp	x22, .Lstatic.96
	add	x22, x22, :lo12:.Lstatic.96
	mov	w23, #21
	b	.LBB2_542
.LBB2_533:
	mov	w27, wzr
	adrp	x22, .Lstatic.97
	add	x22, x22, :lo12:.Lstatic.97
	mov	w23, #48
	b	.LBB2_542
.LBB2_534:
	mov	w27, wzr
	adrp	x22, .Lstatic.101
	add	x22, x22, :lo12:.Lstatic.101
	mov	w23, #35
	b	.LBB2_542
.LBB2_535:
	mov	w27, wzr
	adrp	x22, .Lstatic.99
	add	x22, x22, :lo12:.Lstatic.99
	mov	w23, #29
	b	.LBB2_542
.LBB2_536:
	add	x0, sp, #1248
	mov	w1, #17
	mov	x23, x14
	bl	"std_alloc::vec::Vec::grow_amortized::<#1908c79f2a33ade2>"
	cbz	w0, .LBB2_1238
	ldr	x24, [sp, #1248]
	ldr	x8, [sp, #1256]
	adrp	x10, .Lstatic.93
	add	x10, x10, :lo12:.Lstatic.93
	ldr	x27, [sp, #1264]
	add	x9, x24, x8
	sub	x11, x9, x10
	cmp	x11, #16
	add	x11, sp, #1248
	stp	xzr, xzr, [x11, #8]
	b.hi	.LBB2_619
	adrp	x10, .LCPI2_6
	ldr	q0, [x10, :lo12:.LCPI2_6]
	mov	w10, #32
	strb	w10, [x9, #16]
	b	.LBB2_620
.LBB2_539:
	adrp	x22, .Lstatic.92
	add	x22, x22, :lo12:.Lstatic.92
.LBB2_540:
	mov	w27, #1
	mov	w23, #13
	b	.LBB2_542
.LBB2_541:
	mov	w27, wzr
	adrp	x22, .Lstatic.102
	add	x22, x22, :lo12:.Lstatic.102
	mov	w23, #47
.LBB2_542:
	add	x0, sp, #1248
	mov	x1, x23
	bl	"std_alloc::vec::Vec::grow_amortized::<#1908c79f2a33ade2>"
	cbz	w0, .LBB2_1238
	ldr	x24, [sp, #1248]
	ldr	x8, [sp, #1256]
	add	x0, x24, x8
	add	x26, x8, x23
	sub	x9, x0, x22
	cmp	x9, x23
	b.hs	.LBB2_546
	add	x9, x8, x24
	sub	x9, x9, x22
	cmp	x9, #16
	b.hs	.LBB2_547
	mov	x9, xzr
	mov	x14, x25
	b	.LBB2_556
.LBB2_546:
	mov	x1, x22
	mov	x2, x23
	bl	memmove
	mov	x14, x25
	b	.LBB2_558
.LBB2_547:
	mov	x14, x25
	tbz	w27, #0, .LBB2_549
	mov	x9, xzr
	b	.LBB2_553
.LBB2_549:
	and	x10, x23, #0xc
	and	x9, x23, #0x30
	mov	x11, x8
	mov	x12, x22
	and	x13, x23, #0x30
.LBB2_550:
	ldr	q0, [x12], #16
	subs	x13, x13, #16
	str	q0, [x24, x11]
	add	x11, x11, #16
	b.ne	.LBB2_550
	cmp	x23, x9
	b.eq	.LBB2_558
	cbz	x10, .LBB2_556
.LBB2_553:
	mov	x12, x9
	and	x9, x23, #0x3c
	sub	x10, x12, x9
	add	x11, x22, x12
	add	x12, x12, x8
.LBB2_554:
	ldr	w13, [x11], #4
	adds	x10, x10, #4
	str	w13, [x24, x12]
	add	x12, x12, #4
	b.ne	.LBB2_554
	cmp	x23, x9
	b.eq	.LBB2_558
.LBB2_556:
	sub	x10, x23, x9
	add	x11, x22, x9
	add	x8, x9, x8
.LBB2_557:
	ldrb	w9, [x11], #1
	subs	x10, x10, #1
	strb	w9, [x24, x8]
	add	x8, x8, #1
	b.ne	.LBB2_557
.LBB2_558:
	ldr	x8, [sp, #1264]
	cmp	w20, #6
	str	x8, [sp, #72]
	b.ne	.LBB2_561
.LBB2_559:
	cbz	x14, .LBB2_561
	mov	x0, x19
	bl	rattle_dealloc
.LBB2_561:
	movi	v0.2d, #0000000000000000
	mov	w20, #8705
	str	xzr, [sp, #464]
	stp	q0, q0, [sp, #384]
	stp	q0, q0, [sp, #416]
	str	q0, [sp, #448]
	b	.LBB2_53
.LBB2_562:
	adrp	x8, .Lstatic.68+16
	add	x8, x8, :lo12:.Lstatic.68+16
	ldr	q0, [x8]
	ldur	x8, [x8, #13]
	str	q0, [x1]
	stur	x8, [x1, #13]
.LBB2_563:
	mov	w8, #21
	add	x9, sp, #1184
	mov	x19, xzr
	dup	v0.2d, x8
	mov	w20, #1
	str	x1, [x22]
	str	x20, [sp, #1168]
	stur	q0, [x22, #8]
.LBB2_564:
	sub	x8, x29, #24
	mov	w25, #32
	mov	x26, #-1
	add	x0, sp, #1184
	mov	w1, #1
	stp	xzr, xzr, [x9, #8]
	str	x8, [sp, #1184]
	add	x27, sp, #1184
	stp	xzr, xzr, [x9, #48]
	str	w25, [sp, #1208]
	stur	xzr, [x9, #28]
	stur	wzr, [x9, #36]
	str	x26, [sp, #1224]
	bl	"std_alloc::vec::Vec::grow_amortized::<#1908c79f2a33ade2>"
	cbz	w0, .LBB2_975
	ldr	x23, [sp, #1184]
	ldr	x9, [sp, #1192]
	add	x10, x24, x19, lsl #4
	str	w25, [sp, #1208]
	strb	w25, [x23, x9]
	add	x8, x9, #1
	ldr	x25, [sp, #1200]
	ldp	x1, x2, [x10]
	ldr	x9, [sp, #1232]
	stur	xzr, [x27, #28]
	str	x8, [sp, #1192]
	stur	wzr, [x27, #36]
	str	x26, [sp, #1224]
	cbnz	x9, .LBB2_575
	sub	x9, x25, x8
	cmp	x2, x9
	b.hi	.LBB2_584
	add	x0, x23, x8
	add	x26, x8, x2
	sub	x9, x0, x1
	cmp	x9, x2
	b.hs	.LBB2_586
.LBB2_568:
	cmp	x2, #8
	b.lo	.LBB2_570
	add	x9, x8, x23
	sub	x9, x9, x1
	cmp	x9, #32
	b.hs	.LBB2_573
.LBB2_570:
	mov	x9, xzr
.LBB2_571:
	sub	x10, x2, x9
	add	x11, x1, x9
	add	x8, x9, x8
.LBB2_572:
	ldrb	w9, [x11], #1
	subs	x10, x10, #1
	strb	w9, [x23, x8]
	add	x8, x8, #1
	b.ne	.LBB2_572
	b	.LBB2_587
.LBB2_573:
	cmp	x2, #32
	b.hs	.LBB2_577
	mov	x9, xzr
	b	.LBB2_581
.LBB2_575:
	add	x0, sp, #1184
	bl	"core::fmt::formatter::Formatter::write_indented::<#a09238b4ff3d99c5>"
	and	w8, w0, #0xff
	tbnz	w8, #0, .LBB2_975
	ldr	x25, [sp, #1200]
	ldr	x26, [sp, #1192]
	ldr	x23, [sp, #1184]
	b	.LBB2_587
.LBB2_577:
	add	x12, x23, x8
	and	x10, x2, #0x18
	and	x9, x2, #0xffffffffffffffe0
	add	x11, x1, #16
	add	x12, x12, #16
	and	x13, x2, #0xffffffffffffffe0
.LBB2_578:
	ldp	q0, q1, [x11, #-16]
	subs	x13, x13, #32
	add	x11, x11, #32
	stp	q0, q1, [x12, #-16]
	add	x12, x12, #32
	b.ne	.LBB2_578
	cmp	x2, x9
	b.eq	.LBB2_587
	cbz	x10, .LBB2_571
.LBB2_581:
	mov	x12, x9
	and	x9, x2, #0xfffffffffffffff8
	sub	x10, x12, x9
	add	x11, x1, x12
	add	x12, x8, x12
.LBB2_582:
	ldr	d0, [x11], #8
	adds	x10, x10, #8
	str	d0, [x23, x12]
	add	x12, x12, #8
	b.ne	.LBB2_582
	cmp	x2, x9
	b.eq	.LBB2_587
	b	.LBB2_571
.LBB2_584:
	mov	x26, x1
	add	x0, sp, #1184
	mov	x1, x2
	mov	x27, x2
	bl	"std_alloc::vec::Vec::grow_amortized::<#1908c79f2a33ade2>"
	cbz	w0, .LBB2_975
	ldr	x25, [sp, #1200]
	ldr	x8, [sp, #1192]
	mov	x1, x26
	ldr	x23, [sp, #1184]
	mov	x2, x27
	add	x0, x23, x8
	add	x26, x8, x27
	sub	x9, x0, x1
	cmp	x9, x27
	b.lo	.LBB2_568
.LBB2_586:
	bl	memmove
.LBB2_587:
	ldr	x8, [sp, #1176]
	add	x9, sp, #1184
	cmp	x8, x20
	b.eq	.LBB2_589
.LBB2_588:
	mov	w8, #24
	add	x19, x19, #1
	madd	x8, x20, x8, x22
	add	x20, x20, #1
	cmp	x19, #6
	stp	x23, x26, [x8]
	str	x25, [x8, #16]
	str	x20, [sp, #1168]
	b.ne	.LBB2_564
	b	.LBB2_591
.LBB2_589:
	add	x0, sp, #1160
	bl	"std_alloc::vec::Vec::grow_amortized::<#0802a6bb4cff063a>"
	cbz	w0, .LBB2_1169
	ldr	x20, [sp, #1168]
	ldr	x22, [sp, #1160]
	add	x9, sp, #1184
	b	.LBB2_588
.LBB2_591:
	mov	w0, #3
	mov	w1, #1
	bl	rattle_alloc
	tbz	w0, #0, .LBB2_1006
	adrp	x8, .Lstatic.69
	add	x8, x8, :lo12:.Lstatic.69
	sub	x8, x1, x8
	sub	x8, x8, #16
	cmp	x8, #2
	b.hi	.LBB2_744
	mov	w8, #20037
	mov	w9, #68
	strh	w8, [x1]
	strb	w9, [x1, #2]
	b	.LBB2_745
.LBB2_594:
	adrp	x8, .Lstatic.76+53
	add	x8, x8, :lo12:.Lstatic.76+53
	ldr	q0, [x8]
	ldur	q1, [x8, #11]
	str	q0, [x1]
	stur	q1, [x1, #11]
.LBB2_595:
	mov	w8, #27
	str	x1, [x24, #24]
	mov	w0, #35
	dup	v0.2d, x8
	mov	w1, #1
	str	q0, [x24, #32]
	bl	rattle_alloc
	tbz	w0, #0, .LBB2_598
	sub	x8, x1, x20
	sub	x8, x8, #80
	cmp	x8, #35
	b.hs	.LBB2_736
	adrp	x8, .LCPI2_14
	adrp	x9, .LCPI2_15
	mov	w10, #29554
	ldr	q0, [x8, :lo12:.LCPI2_14]
	ldr	q1, [x9, :lo12:.LCPI2_15]
	mov	w8, #47
	strh	w10, [x1, #32]
	stp	q0, q1, [x1]
	strb	w8, [x1, #34]
	b	.LBB2_737
.LBB2_598:
	movi	v0.2d, #0000000000000000
	ldr	x8, [x24, #16]
	stp	q0, q0, [x29, #-128]
	stp	q0, q0, [x29, #-96]
	stp	q0, q0, [x29, #-64]
	cbz	x8, .LBB2_600
	ldr	x0, [x24]
	bl	rattle_dealloc
.LBB2_600:
	tbz	w19, #0, .LBB2_603
	ldr	x8, [x24, #40]
	cbz	x8, .LBB2_603
	ldr	x0, [x24, #24]
	bl	rattle_dealloc
.LBB2_603:
	mov	x0, x24
	bl	rattle_dealloc
	mov	x26, xzr
	mov	x24, xzr
	mov	w12, #1
	mov	w9, #10
.LBB2_604:
	ldp	q0, q1, [x29, #-96]
	add	x10, sp, #896
	sub	x11, x29, #128
	mov	x8, xzr
	stur	q0, [x10, #72]
	ldp	q0, q2, [x29, #-64]
	stur	q1, [x10, #88]
	stur	q0, [x10, #104]
	ldp	q0, q1, [x29, #-128]
	stur	q2, [x10, #120]
	ldur	q2, [x11, #40]
	stur	q0, [x10, #40]
	ldur	q0, [x11, #24]
	stur	q1, [x10, #56]
	ldur	q1, [x11, #8]
	ldur	x10, [x11, #88]
	stp	q1, q0, [sp, #768]
	ldur	q0, [x11, #72]
	ldur	q1, [x11, #56]
	str	x10, [sp, #848]
.LBB2_605:
	ldr	x10, [sp, #936]
	stp	q1, q0, [sp, #816]
	lsr	x13, x9, #8
	and	x14, x9, #0xff
	str	q2, [sp, #800]
	stp	x10, x26, [sp, #64]
	b	.LBB2_52
.LBB2_606:
	add	x0, sp, #1248
	bl	"unftp_control_commands::epsv::make_epsv_reply"
	add	x8, sp, #1248
	add	x11, sp, #896
	ldrb	w12, [sp, #1248]
	ldur	q0, [x8, #56]
	ldur	q1, [x8, #40]
	ldur	q2, [x8, #24]
	stur	q0, [x11, #56]
	ldur	q0, [x8, #120]
	stur	q1, [x11, #40]
	ldur	q1, [x8, #104]
	stur	q0, [x11, #120]
	ldur	q0, [x8, #88]
	stur	q1, [x11, #104]
	ldur	q1, [x8, #72]
	ldur	x10, [x11, #128]
	stur	q0, [x11, #88]
	ldur	q0, [x8, #8]
	stur	q2, [x11, #24]
	stur	q1, [x11, #72]
	stur	q0, [x11, #8]
	ldp	q0, q1, [x11, #48]
	ldrh	w8, [sp, #910]
	ldur	w9, [x11, #10]
	ldrb	w14, [sp, #904]
	ldrb	w13, [sp, #905]
	ldr	x24, [sp, #912]
	ldr	x26, [sp, #920]
	orr	x8, x9, x8, lsl #32
	ldr	x9, [sp, #928]
	stp	q0, q1, [sp, #768]
	ldp	q2, q0, [x11, #96]
	ldur	q1, [x11, #80]
	str	x9, [sp, #72]
	ldr	x9, [sp, #936]
	str	x10, [sp, #848]
	stp	q2, q0, [sp, #816]
	str	x9, [sp, #64]
	str	q1, [sp, #800]
	b	.LBB2_52
.LBB2_607:
	and	x8, x19, #0xff
	add	x0, sp, #896
	add	x1, sp, #864
	str	x8, [sp, #864]
	str	x14, [sp, #872]
	str	x13, [sp, #880]
	str	x22, [sp, #888]
	bl	"control_demo::responses::answer_mlst"
	add	x10, sp, #896
	ldrh	w8, [sp, #910]
	ldrb	w12, [sp, #896]
	ldp	q0, q1, [x10, #80]
	ldur	w9, [x10, #10]
	ldrb	w14, [sp, #904]
	ldrb	w13, [sp, #905]
	ldr	x24, [sp, #912]
	orr	x8, x9, x8, lsl #32
	ldur	x9, [x10, #128]
	ldr	x26, [sp, #920]
	stp	q0, q1, [sp, #800]
	ldur	q0, [x10, #112]
	str	x9, [sp, #848]
	ldr	x9, [sp, #928]
	str	q0, [sp, #832]
	ldp	q0, q1, [x10, #48]
	str	x9, [sp, #72]
	ldr	x9, [sp, #936]
	str	x9, [sp, #64]
	b	.LBB2_51
.LBB2_608:
	ldr	s0, [x22]
	movi	v1.4h, #33
	ushll	v0.8h, v0.8b, #0
	cmhi	v1.4h, v1.4h, v0.4h
	umaxv	h1, v1.4h
	fmov	w8, s1
	tbz	w8, #0, .LBB2_747
	umov	w8, v0.h[3]
	cmp	w8, #32
	b.hi	.LBB2_524
	mov	w9, #1
	lsl	x8, x9, x8
	mov	x9, #9216
	movk	x9, #1, lsl #32
	tst	x8, x9
	b.eq	.LBB2_524
	umov	w8, v0.h[2]
	and	w8, w8, #0xff
	cmp	w8, #33
	b.lo	.LBB2_524
	umov	w8, v0.h[0]
	and	w9, w8, #0xff
	cmp	w9, #33
	b.lo	.LBB2_524
	umov	w9, v0.h[1]
	and	w9, w9, #0xff
	cmp	w9, #33
	b.lo	.LBB2_524
	add	x20, x22, #4
	mov	x19, x1
.LBB2_615:
	sub	w9, w8, #65
	add	w10, w8, #32
	and	w9, w9, #0xff
	cmp	w9, #26
	csel	w8, w10, w8, lo
	and	w8, w8, #0xff
	cmp	w8, #109
	b.ne	.LBB2_734
	ldrb	w8, [x22, #1]
	sub	w9, w8, #65
	add	w10, w8, #32
	cmp	w9, #26
	csel	w8, w10, w8, lo
	cmp	w8, #100
	b.ne	.LBB2_734
	ldrb	w8, [x22, #2]
	mov	w25, #3
	sub	w9, w8, #65
	add	w10, w8, #32
	cmp	w9, #26
	csel	w8, w10, w8, lo
	cmp	w8, #53
	b.ne	.LBB2_986
	mov	w27, #41
	mov	x22, x20
	b	.LBB2_528
.LBB2_619:
	ldr	q0, [x10]
	mov	w11, #32
	strb	w11, [x9, #16]
.LBB2_620:
	str	q0, [x9]
	add	x22, x8, #17
	ldr	x8, [sp, #1296]
	mov	x2, x23
	str	x22, [sp, #1256]
	str	x27, [sp, #1264]
	cbnz	x8, .LBB2_987
	sub	x8, x27, x22
	cmp	x2, x8
	b.hi	.LBB2_998
	add	x8, x24, x22
	sub	x8, x8, x19
	cmp	x8, x2
	b.hs	.LBB2_1000
.LBB2_623:
	cmp	x2, #8
	mov	x14, x25
	b.lo	.LBB2_625
	add	x8, x22, x24
	sub	x8, x8, x19
	cmp	x8, #32
	b.hs	.LBB2_973
.LBB2_625:
	mov	x8, xzr
.LBB2_626:
	add	x10, x8, x22
	sub	x9, x2, x8
	add	x8, x19, x8
	add	x10, x24, x10
.LBB2_627:
	ldrb	w11, [x8], #1
	subs	x9, x9, #1
	strb	w11, [x10], #1
	b.ne	.LBB2_627
	b	.LBB2_1001
.LBB2_628:
	mov	w27, #42
	mov	x23, x22
	stur	wzr, [x28, #195]
	str	wzr, [sp, #672]
	str	xzr, [sp, #904]
	str	xzr, [sp, #896]
	str	xzr, [sp, #912]
	cbnz	x25, .LBB2_16
.LBB2_629:
	mov	x16, xzr
	adrp	x24, .Lstatic.2
	add	x24, x24, :lo12:.Lstatic.2
	mov	w25, #4
	mov	x22, x20
	movi	v0.2d, #0000000000000000
	stp	q0, q0, [sp, #896]
	cbz	x19, .LBB2_646
.LBB2_630:
	cmp	x19, #1
	b.eq	.LBB2_645
	cmp	x19, #2
	b.hi	.LBB2_645
	ldrb	w8, [x22]
	cmp	w8, #10
	b.eq	.LBB2_646
	cmp	w8, #13
	b.ne	.LBB2_635
	ldrb	w8, [x22, #1]
	cmp	w8, #10
	b.eq	.LBB2_646
.LBB2_635:
	subs	x8, x19, #2
	csel	x23, xzr, x8, lo
	sub	x8, x19, x23
	cmp	x8, #2
	b.ne	.LBB2_661
	add	x8, x22, x23
	ldrb	w9, [x8]
	cmp	w9, #13
	b.ne	.LBB2_661
	ldrb	w8, [x8, #1]
	cmp	w8, #10
	b.ne	.LBB2_661
	cmp	x23, #3
	b.hi	.LBB2_652
	cmp	x19, #3
	b.lo	.LBB2_743
	ldrb	w8, [x22]
	cmp	w8, #14
	b.lo	.LBB2_661
	cmp	x23, #1
	b.eq	.LBB2_743
	ldrb	w8, [x22, #1]
	cmp	w8, #14
	b.lo	.LBB2_661
	cmp	x23, #2
	b.eq	.LBB2_743
	ldrb	w8, [x22, #2]
	cmp	w8, #14
	b.lo	.LBB2_661
	b	.LBB2_743
.LBB2_645:
	ldrb	w8, [x22]
	cmp	w8, #10
	b.ne	.LBB2_635
.LBB2_646:
	mov	x23, xzr
	mov	x26, xzr
	adrp	x22, .Lstatic.2
	add	x22, x22, :lo12:.Lstatic.2
	ldr	x28, [sp, #56]
	cmp	w25, #3
	b.gt	.LBB2_663
.LBB2_647:
	cmp	w25, #1
	b.eq	.LBB2_650
	cmp	w25, #2
	b.ne	.LBB2_651
	cmp	x23, #0
	mov	x10, xzr
	mov	w8, wzr
	mov	w12, wzr
	cset	w11, ne
	csel	x17, x22, xzr, ne
	csel	x26, x26, xzr, ne
	b	.LBB2_760
.LBB2_650:
	cbnz	x23, .LBB2_805
	b	.LBB2_697
.LBB2_651:
	cbnz	x23, .LBB2_680
	b	.LBB2_805
.LBB2_652:
	cmp	x23, #7
	b.hi	.LBB2_656
	subs	x8, x23, #4
	b.eq	.LBB2_655
	ldr	s0, [x22]
	movi	v1.4h, #14
	ushll	v0.8h, v0.8b, #0
	cmhi	v0.4h, v1.4h, v0.4h
	umaxv	h0, v0.4h
	fmov	w9, s0
	tbnz	w9, #0, .LBB2_661
.LBB2_655:
	ldr	s0, [x22, x8]
	movi	v1.4h, #14
	ushll	v0.8h, v0.8b, #0
	cmhi	v0.4h, v1.4h, v0.4h
	umaxv	h0, v0.4h
	b	.LBB2_660
.LBB2_656:
	cmp	x23, #15
	b.hi	.LBB2_728
	subs	x8, x23, #8
	b.eq	.LBB2_659
	movi	v0.8b, #14
	ldr	d1, [x22]
	cmhi	v0.8b, v0.8b, v1.8b
	umaxv	b0, v0.8b
	fmov	w9, s0
	tbnz	w9, #0, .LBB2_661
.LBB2_659:
	movi	v0.8b, #14
	ldr	d1, [x22, x8]
	cmhi	v0.8b, v0.8b, v1.8b
	umaxv	b0, v0.8b
.LBB2_660:
	fmov	w8, s0
	tbz	w8, #0, .LBB2_743
.LBB2_661:
	add	x0, sp, #896
	mov	x1, x22
	mov	x2, x19
	mov	x20, x16
	bl	"unftp_control_codecs::line_parser::value::some_value"
	ldrb	w8, [sp, #896]
	cmp	w8, #1
	b.ne	.LBB2_678
	ldrb	w26, [sp, #904]
	ldr	x22, [sp, #912]
	mov	x16, x20
	ldr	x23, [sp, #920]
	ldr	x28, [sp, #56]
	cmp	w25, #3
	b.le	.LBB2_647
.LBB2_663:
	cmp	w25, #4
	b.eq	.LBB2_679
	cmp	w25, #5
	b.ne	.LBB2_684
	mov	x8, xzr
	cbz	x23, .LBB2_694
	mov	w11, wzr
	sub	x9, x23, #1
	sub	x10, x23, #2
	b	.LBB2_669
.LBB2_667:
	cmp	w12, #32
	cset	w11, ne
.LBB2_668:
	add	x8, x8, #1
	cmp	x23, x8
	b.eq	.LBB2_693
.LBB2_669:
	ldrb	w12, [x22, x8]
	tbnz	w11, #0, .LBB2_667
	cmp	w12, #45
	b.ne	.LBB2_694
	cmp	x10, x8
	add	x11, x22, x8
	b.ne	.LBB2_674
	ldrb	w11, [x11, #1]
	cmp	w11, #45
	b.eq	.LBB2_693
	mov	w11, #1
	b	.LBB2_668
.LBB2_674:
	cmp	x9, x8
	b.eq	.LBB2_693
	ldrb	w11, [x11, #1]
	cmp	w11, #45
	mov	w11, #1
	b.ne	.LBB2_668
	add	x12, x22, x8
	ldrb	w12, [x12, #2]
	cmp	w12, #32
	b.ne	.LBB2_668
	add	x8, x8, #3
	b	.LBB2_694
.LBB2_678:
	mov	w9, #2
	b	.LBB2_18
.LBB2_679:
	cbz	x23, .LBB2_697
.LBB2_680:
	cbnz	x26, .LBB2_696
	mov	x20, x16
	cmp	x23, #128
	str	xzr, [sp, #912]
	str	xzr, [sp, #896]
	str	xzr, [sp, #904]
	str	xzr, [sp, #1056]
	str	xzr, [sp, #1040]
	str	xzr, [sp, #1048]
	stp	xzr, xzr, [x29, #-128]
	b.lo	.LBB2_702
	add	x0, sp, #896
	mov	x1, x22
	mov	x2, x23
	bl	"unftp_control_message::utf8::long_text"
	ldr	x26, [sp, #904]
	ldr	x17, [sp, #912]
	ldrb	w8, [sp, #896]
	mov	x16, x20
	cmp	w8, #1
	b.eq	.LBB2_718
.LBB2_683:
	mov	x26, xzr
	b	.LBB2_696
.LBB2_684:
	movi	v0.2d, #0000000000000000
	str	xzr, [sp, #1072]
	str	q0, [sp, #1056]
	str	q0, [sp, #1040]
	cbz	x26, .LBB2_698
	and	w8, w27, #0xff
	str	xzr, [sp, #928]
	cmp	w8, #34
	stp	q0, q0, [sp, #896]
	b.ne	.LBB2_699
	ldr	x26, [sp, #48]
	mov	x19, xzr
	mov	x8, x22
	mov	x9, x23
	stp	xzr, xzr, [x29, #-120]
	stur	xzr, [x29, #-128]
	stur	wzr, [x29, #-104]
	b	.LBB2_689
.LBB2_687:
	ldrb	w10, [x8, #1]
	cmp	w10, #0
	mov	w10, #1
	cinc	x10, x10, eq
.LBB2_688:
	add	x8, x8, x10
	sub	x9, x9, x10
	add	x19, x19, #1
.LBB2_689:
	cmp	x9, #1
	mov	x10, x9
	b.eq	.LBB2_688
	cbz	x9, .LBB2_700
	ldrb	w10, [x8]
	cmp	w10, #13
	b.eq	.LBB2_687
	mov	w10, #1
	b	.LBB2_688
.LBB2_693:
	mov	x8, x23
.LBB2_694:
	subs	x23, x23, x8
	b.eq	.LBB2_697
	add	x22, x22, x8
	cbz	x26, .LBB2_704
.LBB2_696:
	mov	x10, xzr
	mov	w8, wzr
	mov	w12, wzr
	mov	w11, #3
	mov	x17, x22
	b	.LBB2_760
.LBB2_697:
	mov	x26, xzr
	mov	x17, xzr
	mov	x10, xzr
	mov	w8, wzr
	mov	w12, wzr
	mov	w11, wzr
	b	.LBB2_760
.LBB2_698:
	add	x0, sp, #1040
	mov	w1, w27
	mov	x2, x22
	mov	x3, x23
	mov	x20, x16
	bl	"unftp_control_codecs::line_parser::typed::typed_bytes"
	ldrb	w13, [sp, #1040]
	ldrb	w9, [sp, #1041]
	mov	x16, x20
	ldrb	w11, [sp, #1048]
	ldrb	w12, [sp, #1049]
	ldrb	w8, [sp, #1050]
	ldrb	w10, [sp, #1051]
	ldr	x26, [sp, #48]
	cbnz	w13, .LBB2_19
	b	.LBB2_759
.LBB2_699:
	add	x0, sp, #896
	mov	w1, w27
	mov	x2, x22
	mov	x3, x23
	mov	x20, x16
	bl	"unftp_control_codecs::line_parser::typed::typed_bytes"
	ldrb	w13, [sp, #896]
	ldrb	w9, [sp, #897]
	mov	x16, x20
	ldrb	w11, [sp, #904]
	ldrb	w12, [sp, #905]
	ldrb	w8, [sp, #906]
	ldrb	w10, [sp, #907]
	ldr	x26, [sp, #48]
	b	.LBB2_758
.LBB2_700:
	cmp	x19, #4
	b.lo	.LBB2_706
	add	x10, sp, #896
	ldr	x28, [sp, #56]
	mov	w8, wzr
	mov	w12, wzr
	mov	w11, wzr
	mov	w9, wzr
	stp	xzr, xzr, [x10, #16]
	mov	w13, #1
	stur	xzr, [x10, #32]
	b	.LBB2_757
.LBB2_702:
	add	x0, sp, #1040
	mov	x1, x22
	mov	x2, x23
	bl	"core::str::utf8::from_utf8"
	ldrb	w8, [sp, #1040]
	cbz	w8, .LBB2_716
	mov	x8, xzr
	b	.LBB2_717
.LBB2_704:
	mov	x20, x16
	cmp	x23, #128
	str	xzr, [sp, #912]
	str	xzr, [sp, #896]
	str	xzr, [sp, #904]
	str	xzr, [sp, #1056]
	str	xzr, [sp, #1040]
	str	xzr, [sp, #1048]
	stp	xzr, xzr, [x29, #-128]
	b.lo	.LBB2_714
	add	x0, sp, #896
	mov	x1, x22
	mov	x2, x23
	bl	"unftp_control_message::utf8::long_text"
	ldr	x26, [sp, #904]
	ldr	x17, [sp, #912]
	ldrb	w8, [sp, #896]
	b	.LBB2_727
.LBB2_706:
	strb	wzr, [sp, #386]
	strh	wzr, [sp, #384]
	cbz	x23, .LBB2_712
	add	x8, sp, #384
	b	.LBB2_709
.LBB2_708:
	subs	x23, x23, x9
	add	x22, x22, x9
	add	x8, x8, #1
	b.eq	.LBB2_712
.LBB2_709:
	ldrb	w10, [x22]
	cmp	x23, #1
	mov	w9, #1
	strb	w10, [x8]
	b.eq	.LBB2_708
	cmp	w10, #13
	b.ne	.LBB2_708
	ldrb	w9, [x22, #1]
	cmp	w9, #0
	mov	w9, #1
	cinc	x9, x9, eq
	b	.LBB2_708
.LBB2_712:
	add	x0, sp, #768
	add	x1, sp, #384
	mov	x2, x19
	mov	x20, x16
	str	xzr, [sp, #776]
	str	xzr, [sp, #768]
	str	xzr, [sp, #784]
	bl	"core::str::utf8::from_utf8"
	ldrb	w8, [sp, #768]
	cbz	w8, .LBB2_719
	sub	x10, x29, #128
	ldr	x28, [sp, #56]
	mov	w11, wzr
	mov	w12, wzr
	mov	w8, wzr
	stur	xzr, [x10, #12]
	stur	xzr, [x10, #4]
	mov	w13, #1
	mov	w9, #1
	stur	xzr, [x10, #20]
	mov	x16, x20
	b	.LBB2_756
.LBB2_714:
	add	x0, sp, #1040
	mov	x1, x22
	mov	x2, x23
	bl	"core::str::utf8::from_utf8"
	ldrb	w8, [sp, #1040]
	cbz	w8, .LBB2_725
	mov	w8, wzr
	b	.LBB2_726
.LBB2_716:
	add	x8, sp, #1040
	ldur	q0, [x8, #8]
	mov	w8, #1
	stur	q0, [x29, #-128]
.LBB2_717:
	ldur	q0, [x29, #-128]
	add	x9, sp, #896
	str	x8, [sp, #896]
	stur	q0, [x9, #8]
	ldr	x26, [sp, #904]
	ldr	x17, [sp, #912]
	mov	x16, x20
	cmp	w8, #1
	b.ne	.LBB2_683
.LBB2_718:
	mov	x23, xzr
	mov	x10, xzr
	mov	w8, wzr
	mov	w12, wzr
	mov	w11, #2
	b	.LBB2_760
.LBB2_719:
	ldr	x28, [sp, #56]
	cmp	x19, #3
	mov	x16, x20
	b.ne	.LBB2_754
	ldrb	w8, [sp, #384]
	sub	w9, w8, #65
	add	w10, w8, #32
	cmp	w9, #26
	csel	w8, w10, w8, lo
	cmp	w8, #115
	b.eq	.LBB2_750
	cmp	w8, #116
	b.ne	.LBB2_754
	ldrb	w8, [sp, #385]
	sub	w9, w8, #65
	add	w10, w8, #32
	cmp	w9, #26
	csel	w8, w10, w8, lo
	cmp	w8, #108
	b.ne	.LBB2_754
	ldrb	w8, [sp, #386]
	sub	w9, w8, #65
	add	w10, w8, #32
	cmp	w9, #26
	csel	w8, w10, w8, lo
	cmp	w8, #115
	b.ne	.LBB2_754
	mov	w8, #1
	b	.LBB2_753
.LBB2_725:
	add	x8, sp, #1040
	ldur	q0, [x8, #8]
	mov	w8, #1
	stur	q0, [x29, #-128]
.LBB2_726:
	ldur	q0, [x29, #-128]
	add	x9, sp, #896
	stur	q0, [x9, #8]
	ldr	x26, [sp, #904]
	ldr	x17, [sp, #912]
.LBB2_727:
	mov	x16, x20
	cmp	w8, #1
	b.ne	.LBB2_683
	b	.LBB2_718
.LBB2_728:
	cmp	x23, #63
	b.hi	.LBB2_738
	subs	x8, x23, #16
	b.eq	.LBB2_733
	mov	x9, xzr
.LBB2_731:
	movi	v0.16b, #14
	ldr	q1, [x22, x9]
	adrp	x10, .LCPI2_0
	cmhi	v0.16b, v0.16b, v1.16b
	ldr	q1, [x10, :lo12:.LCPI2_0]
	and	v0.16b, v0.16b, v1.16b
	addp	v0.16b, v0.16b, v0.16b
	addp	v0.16b, v0.16b, v0.16b
	addp	v0.16b, v0.16b, v0.16b
	umov	w10, v0.h[0]
	cbnz	w10, .LBB2_661
	add	x9, x9, #16
	cmp	x9, x8
	b.lo	.LBB2_731
.LBB2_733:
	movi	v0.16b, #14
	ldr	q1, [x22, x8]
	adrp	x8, .LCPI2_0
	cmhi	v0.16b, v0.16b, v1.16b
	ldr	q1, [x8, :lo12:.LCPI2_0]
	and	v0.16b, v0.16b, v1.16b
	addp	v0.16b, v0.16b, v0.16b
	addp	v0.16b, v0.16b, v0.16b
	addp	v0.16b, v0.16b, v0.16b
	umov	w8, v0.h[0]
	cbnz	w8, .LBB2_661
	b	.LBB2_743
.LBB2_734:
	mov	w27, #42
	mov	w25, #3
.LBB2_735:
	mov	x23, x22
	mov	x22, x20
	b	.LBB2_189
.LBB2_736:
	adrp	x9, .Lstatic.76+80
	add	x9, x9, :lo12:.Lstatic.76+80
	mov	w8, #29230
	ldp	q0, q1, [x9]
	movk	w8, #12147, lsl #16
	stur	w8, [x1, #31]
	stp	q0, q1, [x1]
.LBB2_737:
	mov	w8, #35
	movi	v0.2d, #0000000000000000
	mov	w12, wzr
	dup	v1.2d, x8
	str	x1, [x24, #48]
	mov	w9, #3074
	mov	w26, #3
	stur	q1, [x24, #56]
	stp	q0, q0, [x29, #-128]
	stp	q0, q0, [x29, #-96]
	stp	q0, q0, [x29, #-64]
	b	.LBB2_604
.LBB2_738:
	subs	x8, x23, #64
	b.eq	.LBB2_742
	mov	x9, xzr
.LBB2_740:
	movi	v0.16b, #14
	add	x10, x22, x9
	ldp	q1, q4, [x10]
	ldp	q3, q2, [x10, #32]
	adrp	x10, .LCPI2_0
	cmhi	v1.16b, v0.16b, v1.16b
	cmhi	v2.16b, v0.16b, v2.16b
	cmhi	v3.16b, v0.16b, v3.16b
	cmhi	v0.16b, v0.16b, v4.16b
	ldr	q4, [x10, :lo12:.LCPI2_0]
	and	v1.16b, v1.16b, v4.16b
	and	v0.16b, v0.16b, v4.16b
	and	v3.16b, v3.16b, v4.16b
	and	v2.16b, v2.16b, v4.16b
	addp	v0.16b, v1.16b, v0.16b
	addp	v1.16b, v3.16b, v2.16b
	addp	v0.16b, v0.16b, v1.16b
	addp	v0.16b, v0.16b, v0.16b
	fmov	x10, d0
	cbnz	x10, .LBB2_661
	add	x9, x9, #64
	cmp	x9, x8
	b.lo	.LBB2_740
.LBB2_742:
	movi	v0.16b, #14
	add	x8, x22, x8
	ldp	q1, q4, [x8]
	ldp	q3, q2, [x8, #32]
	adrp	x8, .LCPI2_0
	cmhi	v1.16b, v0.16b, v1.16b
	cmhi	v2.16b, v0.16b, v2.16b
	cmhi	v3.16b, v0.16b, v3.16b
	cmhi	v0.16b, v0.16b, v4.16b
	ldr	q4, [x8, :lo12:.LCPI2_0]
	and	v1.16b, v1.16b, v4.16b
	and	v0.16b, v0.16b, v4.16b
	and	v3.16b, v3.16b, v4.16b
	and	v2.16b, v2.16b, v4.16b
	addp	v0.16b, v1.16b, v0.16b
	addp	v1.16b, v3.16b, v2.16b
	addp	v0.16b, v0.16b, v1.16b
	addp	v0.16b, v0.16b, v0.16b
	fmov	x8, d0
	cbnz	x8, .LBB2_661
.LBB2_743:
	mov	x26, xzr
	ldr	x28, [sp, #56]
	cmp	w25, #3
	b.le	.LBB2_647
	b	.LBB2_663
.LBB2_744:
	mov	w8, #68
	mov	w9, #20037
	strb	w8, [x1, #2]
	strh	w9, [x1]
.LBB2_745:
	ldr	x8, [sp, #1176]
	cmp	x8, x20
	b.eq	.LBB2_1003
.LBB2_746:
	mov	w8, #24
	ldr	x9, [sp, #1160]
	ldr	x10, [sp, #1176]
	madd	x8, x20, x8, x9
	mov	w9, #3
	mov	w19, wzr
	dup	v0.2d, x9
	add	x9, x20, #1
	mov	w20, #2306
	str	x9, [sp, #1168]
	str	x1, [x8]
	stur	q0, [x8, #8]
	add	x8, sp, #1160
	ldr	q0, [sp, #1312]
	ldr	q1, [sp, #1328]
	ldr	q2, [sp, #1344]
	str	x10, [sp, #1264]
	ldr	q3, [sp, #1296]
	str	q0, [sp, #1104]
	ldr	q0, [sp, #1280]
	str	q1, [sp, #1120]
	ldr	q1, [x8]
	ldr	x8, [sp, #1360]
	str	q2, [sp, #1136]
	ldr	q2, [sp, #1264]
	str	q0, [sp, #1072]
	str	q3, [sp, #1088]
	str	q1, [sp, #1248]
	str	x8, [sp, #1152]
	str	q2, [sp, #1056]
	str	q1, [sp, #1040]
	b	.LBB2_1015
.LBB2_747:
	mov	x0, x22
	ldrb	w8, [x0, #4]!
	cmp	w8, #32
	b.hi	.LBB2_1002
	mov	w9, #1
	lsl	x8, x9, x8
	mov	x9, #9216
	movk	x9, #1, lsl #32
	tst	x8, x9
	b.eq	.LBB2_1002
	sub	x19, x19, #5
	mov	x23, x22
	add	x22, x22, #5
	mov	w27, #42
	mov	w25, #4
	b	.LBB2_189
.LBB2_750:
	ldrb	w8, [sp, #385]
	sub	w9, w8, #65
	add	w10, w8, #32
	cmp	w9, #26
	csel	w8, w10, w8, lo
	cmp	w8, #115
	b.ne	.LBB2_754
	ldrb	w8, [sp, #386]
	sub	w9, w8, #65
	add	w10, w8, #32
	cmp	w9, #26
	csel	w8, w10, w8, lo
	cmp	w8, #108
	b.ne	.LBB2_754
	mov	w8, wzr
.LBB2_753:
	mov	w13, wzr
	mov	w9, wzr
	sub	x10, x29, #128
	mov	w12, #3
	mov	w11, #4
	stur	xzr, [x10, #12]
	stur	xzr, [x10, #4]
	b	.LBB2_755
.LBB2_754:
	sub	x10, x29, #128
	mov	w9, wzr
	mov	w11, wzr
	mov	w12, wzr
	mov	w8, wzr
	stur	xzr, [x10, #12]
	stur	xzr, [x10, #4]
	mov	w13, #1
.LBB2_755:
	stur	xzr, [x10, #20]
.LBB2_756:
	ldur	q0, [x10, #4]
	ldur	x10, [x10, #20]
	add	x14, sp, #896
	stur	q0, [x14, #16]
	stur	x10, [x14, #32]
.LBB2_757:
	mov	x10, xzr
.LBB2_758:
	add	x14, sp, #896
	add	x15, sp, #1040
	ldur	q0, [x14, #16]
	ldur	x14, [x14, #32]
	stur	q0, [x15, #16]
	stur	x14, [x15, #32]
	cbnz	w13, .LBB2_19
.LBB2_759:
	ldr	x26, [sp, #1056]
	ldr	x17, [sp, #1064]
	ldr	x23, [sp, #1072]
.LBB2_760:
	add	x14, sp, #480
	ldr	w9, [sp, #672]
	movi	v0.2d, #0000000000000000
	ldur	w13, [x14, #195]
	strb	w27, [sp, #1248]
	str	w9, [sp, #576]
	stur	w13, [x14, #99]
	mov	w13, w13
	ldr	w9, [sp, #576]
	str	x24, [sp, #1256]
	str	x16, [sp, #1264]
	str	w9, [sp, #480]
	stur	w13, [x14, #3]
	ldr	x13, [sp, #8]
	ldr	w9, [sp, #480]
	strb	w11, [sp, #1272]
	strb	w12, [sp, #1273]
	str	w9, [x13]
	ldur	w9, [x14, #3]
	strb	w8, [sp, #1274]
	stur	w9, [x13, #3]
	and	x9, x27, #0xff
	adrp	x13, .LJTI2_1
	add	x13, x13, :lo12:.LJTI2_1
	strb	w10, [sp, #1275]
	str	wzr, [sp, #1276]
	str	x26, [sp, #1280]
	str	x17, [sp, #1288]
	str	x23, [sp, #1296]
	str	q0, [sp, #1040]
	str	q0, [sp, #1056]
	str	xzr, [sp, #1072]
	stp	q0, q0, [x29, #-128]
	stur	xzr, [x29, #-96]
	stp	q0, q0, [sp, #672]
	stp	q0, q0, [sp, #768]
	str	xzr, [sp, #800]
	str	xzr, [sp, #704]
.Ltmp6:
	adr	x14, .Ltmp6
	ldrsw	x15, [x13, x9, lsl #2]
	add	x14, x14, x15
	br	x14
.LBB2_761:
	ldr	x26, [sp, #48]
	cbz	w11, .LBB2_766
	mov	w9, wzr
	b	.LBB2_19
.LBB2_763:
	sub	w8, w11, #2
	stp	q0, q0, [sp, #896]
	cmp	w8, #4
	str	q0, [sp, #928]
	b.lo	.LBB2_805
	cbnz	w11, .LBB2_948
	mov	w15, w11
	mov	x22, xzr
	adrp	x19, .Lstatic.2
	add	x19, x19, :lo12:.Lstatic.2
	mov	x13, x15
	mov	x14, x15
	b	.LBB2_950
.LBB2_766:
	mov	x10, xzr
	mov	w8, wzr
	b	.LBB2_878
.LBB2_767:
	add	x0, sp, #896
	add	x1, sp, #1248
	mov	x23, x16
	stp	q0, q0, [sp, #896]
	bl	"unftp_control_message::fields::arguments"
	ldrb	w8, [sp, #896]
	cbnz	w8, .LBB2_906
	ldr	x22, [sp, #904]
	ldr	x15, [sp, #912]
	mov	x13, x23
	ldr	x8, [sp, #920]
	cbz	x23, .LBB2_971
	mov	x27, x22
	tbnz	x13, #63, .LBB2_965
	mov	x0, x13
	mov	w1, #1
	mov	x25, x15
	mov	x22, x13
	mov	x20, x8
	bl	rattle_alloc
	mov	x8, x20
	tbz	w0, #0, .LBB2_965
	sub	x8, x1, x24
	ldr	x26, [sp, #48]
	cmp	x8, x22
	b.hs	.LBB2_989
	mov	x13, x22
	cmp	x22, #8
	mov	x8, xzr
	b.lo	.LBB2_1017
	sub	x9, x1, x24
	mov	x15, x25
	mov	x22, x27
	cmp	x9, #32
	b.lo	.LBB2_1025
	cmp	x13, #32
	b.hs	.LBB2_1018
	mov	x8, xzr
	b	.LBB2_1022
.LBB2_776:
	cmp	w11, #4
	mov	w9, wzr
	mov	x19, xzr
	mov	x13, xzr
	mov	x22, xzr
	mov	x15, xzr
	str	xzr, [sp, #72]
	ccmp	w12, #2, #0, eq
	mov	w11, #37
	b	.LBB2_781
.LBB2_777:
	mov	w8, wzr
	mov	w9, wzr
	mov	x19, xzr
	mov	x13, xzr
	mov	x22, xzr
	mov	x15, xzr
	str	xzr, [sp, #72]
	cmp	w11, #0
	mov	w11, #35
	b	.LBB2_919
.LBB2_778:
	cmp	w11, #4
	mov	w8, wzr
	mov	w9, wzr
	mov	x19, xzr
	mov	x13, xzr
	mov	x22, xzr
	mov	x15, xzr
	str	xzr, [sp, #72]
	ccmp	w12, #5, #0, eq
	mov	w11, #36
	b	.LBB2_919
.LBB2_779:
	mov	w8, wzr
	mov	w9, wzr
	mov	x19, xzr
	mov	x13, xzr
	mov	x22, xzr
	mov	x15, xzr
	str	xzr, [sp, #72]
	cmp	w11, #0
	mov	w11, #27
	b	.LBB2_919
.LBB2_780:
	cmp	w11, #4
	mov	w9, wzr
	mov	x19, xzr
	mov	x13, xzr
	mov	x22, xzr
	mov	x15, xzr
	ccmp	w12, #3, #0, eq
	mov	w11, #34
	str	xzr, [sp, #72]
.LBB2_781:
	cset	w10, ne
	csel	w27, wzr, w11, ne
	csel	w8, wzr, w8, ne
	b	.LBB2_920
.LBB2_782:
	add	x0, sp, #1040
	add	x1, sp, #1248
	bl	"unftp_control_message::fields::optional_text"
	ldrb	w8, [sp, #1040]
	ldr	x26, [sp, #48]
	cbz	w8, .LBB2_951
	ldrb	w9, [sp, #1041]
	b	.LBB2_19
.LBB2_784:
	mov	w8, #1
	mov	w10, #51
	mov	w9, wzr
	lsl	w8, w8, w11
	stp	q0, q0, [sp, #896]
	tst	w8, w10
	b.ne	.LBB2_945
	cmp	w11, #2
	b.ne	.LBB2_943
	cbz	x17, .LBB2_946
	tbnz	x17, #63, .LBB2_944
	mov	x0, x17
	mov	w1, #1
	mov	x20, x17
	bl	rattle_alloc
	tbz	w0, #0, .LBB2_944
	sub	x8, x1, x26
	mov	x19, x1
	mov	x14, x20
	cmp	x8, x20
	b.hs	.LBB2_968
	cmp	x14, #8
	mov	x8, xzr
	b.lo	.LBB2_1064
	sub	x9, x19, x26
	cmp	x9, #32
	b.lo	.LBB2_1064
	cmp	x14, #32
	b.hs	.LBB2_1057
	mov	x8, xzr
	b	.LBB2_1061
.LBB2_794:
	mov	w8, #1
	mov	w10, #51
	mov	w9, wzr
	lsl	w8, w8, w11
	stp	q0, q0, [sp, #896]
	tst	w8, w10
	b.ne	.LBB2_945
	cmp	w11, #2
	b.ne	.LBB2_943
	cbz	x17, .LBB2_946
	tbnz	x17, #63, .LBB2_944
	mov	x0, x17
	mov	w1, #1
	mov	x20, x17
	bl	rattle_alloc
	tbz	w0, #0, .LBB2_944
	sub	x8, x1, x26
	mov	x19, x1
	mov	x14, x20
	cmp	x8, x20
	b.hs	.LBB2_968
	cmp	x14, #8
	mov	x8, xzr
	b.lo	.LBB2_1073
	sub	x9, x19, x26
	cmp	x9, #32
	b.lo	.LBB2_1073
	cmp	x14, #32
	b.hs	.LBB2_1066
	mov	x8, xzr
	b	.LBB2_1070
.LBB2_804:
	sub	w8, w11, #2
	stp	q0, q0, [sp, #896]
	cmp	w8, #4
	str	q0, [sp, #928]
	b.hs	.LBB2_963
.LBB2_805:
	ldr	x26, [sp, #48]
	mov	w9, wzr
	b	.LBB2_19
.LBB2_806:
	mov	w8, #1
	mov	w10, #51
	mov	w9, wzr
	lsl	w8, w8, w11
	stp	q0, q0, [sp, #896]
	tst	w8, w10
	b.ne	.LBB2_945
	cmp	w11, #2
	b.ne	.LBB2_943
	cbz	x17, .LBB2_946
	tbnz	x17, #63, .LBB2_944
	mov	x0, x17
	mov	w1, #1
	mov	x20, x17
	bl	rattle_alloc
	tbz	w0, #0, .LBB2_944
	sub	x8, x1, x26
	mov	x19, x1
	mov	x14, x20
	cmp	x8, x20
	b.hs	.LBB2_968
	cmp	x14, #8
	mov	x8, xzr
	b.lo	.LBB2_1082
	sub	x9, x19, x26
	cmp	x9, #32
	b.lo	.LBB2_1082
	cmp	x14, #32
	b.hs	.LBB2_1075
	mov	x8, xzr
	b	.LBB2_1079
.LBB2_816:
	mov	w8, #1
	mov	w10, #51
	mov	w9, wzr
	lsl	w8, w8, w11
	stp	q0, q0, [sp, #896]
	tst	w8, w10
	b.ne	.LBB2_945
	cmp	w11, #2
	b.ne	.LBB2_943
	cbz	x17, .LBB2_946
	tbnz	x17, #63, .LBB2_944
	mov	x0, x17
	mov	w1, #1
	mov	x20, x17
	bl	rattle_alloc
	tbz	w0, #0, .LBB2_944
	sub	x8, x1, x26
	mov	x19, x1
	mov	x14, x20
	cmp	x8, x20
	b.hs	.LBB2_968
	cmp	x14, #8
	mov	x8, xzr
	b.lo	.LBB2_1091
	sub	x9, x19, x26
	cmp	x9, #32
	b.lo	.LBB2_1091
	cmp	x14, #32
	b.hs	.LBB2_1084
	mov	x8, xzr
	b	.LBB2_1088
.LBB2_826:
	mov	w8, #1
	mov	w10, #51
	mov	w9, wzr
	lsl	w8, w8, w11
	stp	q0, q0, [sp, #896]
	tst	w8, w10
	b.ne	.LBB2_945
	cmp	w11, #2
	b.ne	.LBB2_943
	cbz	x17, .LBB2_946
	tbnz	x17, #63, .LBB2_944
	mov	x0, x17
	mov	w1, #1
	mov	x20, x17
	bl	rattle_alloc
	tbz	w0, #0, .LBB2_944
	sub	x8, x1, x26
	mov	x19, x1
	mov	x14, x20
	cmp	x8, x20
	b.hs	.LBB2_968
	cmp	x14, #8
	mov	x8, xzr
	b.lo	.LBB2_1100
	sub	x9, x19, x26
	cmp	x9, #32
	b.lo	.LBB2_1100
	cmp	x14, #32
	b.hs	.LBB2_1093
	mov	x8, xzr
	b	.LBB2_1097
.LBB2_836:
	cmp	w11, #4
	mov	w9, wzr
	b.ne	.LBB2_945
	ldr	x26, [sp, #48]
	cmp	w12, #4
	b.eq	.LBB2_878
	b	.LBB2_19
.LBB2_838:
	mov	w8, #1
	mov	w10, #51
	mov	w9, wzr
	lsl	w8, w8, w11
	stp	q0, q0, [sp, #896]
	tst	w8, w10
	b.ne	.LBB2_945
	cmp	w11, #2
	b.ne	.LBB2_943
	cbz	x17, .LBB2_946
	tbnz	x17, #63, .LBB2_944
	mov	x0, x17
	mov	w1, #1
	mov	x20, x17
	bl	rattle_alloc
	tbz	w0, #0, .LBB2_944
	sub	x8, x1, x26
	mov	x19, x1
	mov	x14, x20
	cmp	x8, x20
	b.hs	.LBB2_968
	cmp	x14, #8
	mov	x8, xzr
	b.lo	.LBB2_1109
	sub	x9, x19, x26
	cmp	x9, #32
	b.lo	.LBB2_1109
	cmp	x14, #32
	b.hs	.LBB2_1102
	mov	x8, xzr
	b	.LBB2_1106
.LBB2_848:
	cmp	w11, #4
	mov	w9, wzr
	b.ne	.LBB2_945
	ldr	x26, [sp, #48]
	cmp	w12, #1
	b.eq	.LBB2_877
	b	.LBB2_19
.LBB2_850:
	mov	w8, wzr
	mov	w9, wzr
	mov	x19, xzr
	mov	x13, xzr
	mov	x22, xzr
	mov	x15, xzr
	str	xzr, [sp, #72]
	cmp	w11, #0
	mov	w11, #31
	b	.LBB2_919
.LBB2_851:
	sub	x0, x29, #128
	add	x1, sp, #1248
	bl	"unftp_control_message::fields::optional_text"
	ldurb	w8, [x29, #-128]
	ldr	x26, [sp, #48]
	cbz	w8, .LBB2_952
	ldurb	w9, [x29, #-127]
	b	.LBB2_19
.LBB2_853:
	mov	w8, #1
	mov	w10, #51
	mov	w9, wzr
	lsl	w8, w8, w11
	stp	q0, q0, [sp, #896]
	tst	w8, w10
	b.ne	.LBB2_945
	cmp	w11, #2
	b.ne	.LBB2_943
	cbz	x17, .LBB2_946
	tbnz	x17, #63, .LBB2_944
	mov	x0, x17
	mov	w1, #1
	mov	x20, x17
	bl	rattle_alloc
	tbz	w0, #0, .LBB2_944
	sub	x8, x1, x26
	mov	x19, x1
	mov	x14, x20
	cmp	x8, x20
	b.hs	.LBB2_968
	cmp	x14, #8
	mov	x8, xzr
	b.lo	.LBB2_1118
	sub	x9, x19, x26
	cmp	x9, #32
	b.lo	.LBB2_1118
	cmp	x14, #32
	b.hs	.LBB2_1111
	mov	x8, xzr
	b	.LBB2_1115
.LBB2_863:
	mov	w8, wzr
	mov	w9, wzr
	mov	x19, xzr
	mov	x13, xzr
	mov	x22, xzr
	mov	x15, xzr
	cmp	w11, #0
	mov	w11, #20
	str	xzr, [sp, #72]
	b	.LBB2_919
.LBB2_864:
	mov	w8, wzr
	mov	w9, wzr
	mov	x19, xzr
	mov	x13, xzr
	mov	x22, xzr
	mov	x15, xzr
	str	xzr, [sp, #72]
	cmp	w11, #0
	mov	w11, #21
	b	.LBB2_919
.LBB2_865:
	mov	w8, #1
	mov	w10, #51
	mov	w9, wzr
	lsl	w8, w8, w11
	stp	q0, q0, [sp, #896]
	tst	w8, w10
	b.ne	.LBB2_945
	cmp	w11, #2
	b.ne	.LBB2_943
	cbz	x17, .LBB2_946
	tbnz	x17, #63, .LBB2_944
	mov	x0, x17
	mov	w1, #1
	mov	x20, x17
	bl	rattle_alloc
	tbz	w0, #0, .LBB2_944
	sub	x8, x1, x26
	mov	x19, x1
	mov	x14, x20
	cmp	x8, x20
	b.hs	.LBB2_968
	cmp	x14, #8
	mov	x8, xzr
	b.lo	.LBB2_1127
	sub	x9, x19, x26
	cmp	x9, #32
	b.lo	.LBB2_1127
	cmp	x14, #32
	b.hs	.LBB2_1120
	mov	x8, xzr
	b	.LBB2_1124
.LBB2_875:
	cmp	w11, #4
	mov	w9, wzr
	b.ne	.LBB2_945
	ldr	x26, [sp, #48]
	cbnz	w12, .LBB2_19
.LBB2_877:
	mov	x10, xzr
.LBB2_878:
	mov	x19, xzr
	mov	x14, xzr
	mov	x13, xzr
	b	.LBB2_1180
.LBB2_879:
	add	x0, sp, #768
	add	x1, sp, #1248
	bl	"unftp_control_message::fields::optional_text"
	ldrb	w8, [sp, #768]
	ldr	x26, [sp, #48]
	cbz	w8, .LBB2_953
	ldrb	w9, [sp, #769]
	b	.LBB2_19
.LBB2_881:
	mov	w8, wzr
	mov	w9, wzr
	mov	x19, xzr
	mov	x13, xzr
	mov	x22, xzr
	mov	x15, xzr
	str	xzr, [sp, #72]
	cmp	w11, #0
	mov	w11, #30
	b	.LBB2_919
.LBB2_882:
	mov	w8, #1
	mov	w10, #51
	mov	w9, wzr
	lsl	w8, w8, w11
	stp	q0, q0, [sp, #896]
	tst	w8, w10
	b.ne	.LBB2_945
	cmp	w11, #2
	b.ne	.LBB2_943
	cbz	x17, .LBB2_946
	tbnz	x17, #63, .LBB2_944
	mov	x0, x17
	mov	w1, #1
	mov	x20, x17
	bl	rattle_alloc
	tbz	w0, #0, .LBB2_944
	sub	x8, x1, x26
	mov	x19, x1
	mov	x14, x20
	cmp	x8, x20
	b.hs	.LBB2_968
	cmp	x14, #8
	mov	x8, xzr
	b.lo	.LBB2_1136
	sub	x9, x19, x26
	cmp	x9, #32
	b.lo	.LBB2_1136
	cmp	x14, #32
	b.hs	.LBB2_1129
	mov	x8, xzr
	b	.LBB2_1133
.LBB2_892:
	mov	w8, #1
	mov	w10, #51
	mov	w9, wzr
	lsl	w8, w8, w11
	stp	q0, q0, [sp, #896]
	tst	w8, w10
	b.ne	.LBB2_945
	cmp	w11, #2
	b.ne	.LBB2_943
	cbz	x17, .LBB2_946
	tbnz	x17, #63, .LBB2_944
	mov	x0, x17
	mov	w1, #1
	mov	x20, x17
	bl	rattle_alloc
	tbz	w0, #0, .LBB2_944
	sub	x8, x1, x26
	mov	x19, x1
	mov	x14, x20
	cmp	x8, x20
	b.hs	.LBB2_968
	cmp	x14, #8
	mov	x8, xzr
	b.lo	.LBB2_1145
	sub	x9, x19, x26
	cmp	x9, #32
	b.lo	.LBB2_1145
	cmp	x14, #32
	b.hs	.LBB2_1138
	mov	x8, xzr
	b	.LBB2_1142
.LBB2_902:
	cmp	w11, #5
	mov	w11, #39
	mov	w8, wzr
	mov	w9, wzr
	mov	x13, xzr
	mov	x22, xzr
	mov	x15, xzr
	cset	w10, ne
	csel	w27, wzr, w11, ne
	csel	x19, xzr, x26, ne
	str	xzr, [sp, #72]
	b	.LBB2_920
.LBB2_903:
	add	x0, sp, #672
	add	x1, sp, #1248
	bl	"unftp_control_message::fields::optional_text"
	ldrb	w8, [sp, #672]
	ldr	x26, [sp, #48]
	cbz	w8, .LBB2_954
	ldrb	w9, [sp, #673]
	b	.LBB2_19
.LBB2_905:
	add	x0, sp, #896
	add	x1, sp, #1248
	mov	x23, x16
	stp	q0, q0, [sp, #896]
	bl	"unftp_control_message::fields::arguments"
	ldrb	w8, [sp, #896]
	cbz	w8, .LBB2_955
.LBB2_906:
	ldrb	w9, [sp, #897]
	ldr	x26, [sp, #48]
	mov	w27, wzr
	mov	x19, xzr
	mov	x13, xzr
	mov	x22, xzr
	mov	x15, xzr
	str	xzr, [sp, #72]
	mov	w10, #1
	mov	w8, wzr
	b	.LBB2_921
.LBB2_907:
	mov	w8, wzr
	mov	w9, wzr
	mov	x19, xzr
	mov	x13, xzr
	mov	x22, xzr
	mov	x15, xzr
	str	xzr, [sp, #72]
	cmp	w11, #0
	mov	w11, #23
	b	.LBB2_919
.LBB2_908:
	mov	w8, #1
	mov	w10, #51
	mov	w9, wzr
	lsl	w8, w8, w11
	stp	q0, q0, [sp, #896]
	tst	w8, w10
	b.ne	.LBB2_945
	cmp	w11, #2
	b.ne	.LBB2_943
	cbz	x17, .LBB2_946
	tbnz	x17, #63, .LBB2_944
	mov	x0, x17
	mov	w1, #1
	mov	x20, x17
	bl	rattle_alloc
	tbz	w0, #0, .LBB2_944
	sub	x8, x1, x26
	mov	x19, x1
	mov	x14, x20
	cmp	x8, x20
	b.hs	.LBB2_968
	cmp	x14, #8
	mov	x8, xzr
	b.lo	.LBB2_1154
	sub	x9, x19, x26
	cmp	x9, #32
	b.lo	.LBB2_1154
	cmp	x14, #32
	b.hs	.LBB2_1147
	mov	x8, xzr
	b	.LBB2_1151
.LBB2_918:
	mov	w8, wzr
	mov	w9, wzr
	mov	x19, xzr
	mov	x13, xzr
	mov	x22, xzr
	mov	x15, xzr
	str	xzr, [sp, #72]
	cmp	w11, #0
	mov	w11, #29
.LBB2_919:
	cset	w10, ne
	csel	w27, wzr, w11, ne
.LBB2_920:
	ldr	x26, [sp, #48]
.LBB2_921:
	tbnz	w10, #0, .LBB2_19
	mov	x9, xzr
	mov	w11, #1
	mov	x14, x13
	b	.LBB2_1184
.LBB2_923:
	mov	w8, #1
	mov	w10, #51
	mov	w9, wzr
	lsl	w8, w8, w11
	stp	q0, q0, [sp, #896]
	tst	w8, w10
	b.ne	.LBB2_945
	cmp	w11, #2
	b.ne	.LBB2_943
	cbz	x17, .LBB2_946
	tbnz	x17, #63, .LBB2_944
	mov	x0, x17
	mov	w1, #1
	mov	x20, x17
	bl	rattle_alloc
	tbz	w0, #0, .LBB2_944
	sub	x8, x1, x26
	mov	x19, x1
	mov	x14, x20
	cmp	x8, x20
	b.hs	.LBB2_968
	cmp	x14, #8
	mov	x8, xzr
	b.lo	.LBB2_1163
	sub	x9, x19, x26
	cmp	x9, #32
	b.lo	.LBB2_1163
	cmp	x14, #32
	b.hs	.LBB2_1156
	mov	x8, xzr
	b	.LBB2_1160
.LBB2_933:
	mov	w8, #1
	mov	w10, #51
	mov	w9, wzr
	lsl	w8, w8, w11
	stp	q0, q0, [sp, #896]
	tst	w8, w10
	b.ne	.LBB2_945
	cmp	w11, #2
	b.ne	.LBB2_943
	cbz	x17, .LBB2_946
	tbnz	x17, #63, .LBB2_944
	mov	x0, x17
	mov	w1, #1
	mov	x20, x17
	bl	rattle_alloc
	tbz	w0, #0, .LBB2_944
	sub	x8, x1, x26
	mov	x19, x1
	mov	x14, x20
	cmp	x8, x20
	b.hs	.LBB2_968
	cmp	x14, #8
	mov	x8, xzr
	b.lo	.LBB2_1175
	sub	x9, x19, x26
	cmp	x9, #32
	b.lo	.LBB2_1175
	cmp	x14, #32
	b.hs	.LBB2_1165
	mov	x8, xzr
	b	.LBB2_1172
.LBB2_943:
	add	x9, sp, #1248
	and	x8, x26, #0xff
	add	x0, sp, #896
	ldur	q0, [x9, #40]
	str	x8, [sp, #576]
	add	x8, sp, #576
	add	x1, sp, #576
	stur	q0, [x8, #8]
	bl	"unftp_control_message::sent::Sent::to_text"
	ldrb	w8, [sp, #896]
	cbz	w8, .LBB2_947
.LBB2_944:
	mov	w9, #3
.LBB2_945:
	ldr	x26, [sp, #48]
	b	.LBB2_19
.LBB2_946:
	mov	x14, xzr
	mov	x13, xzr
	sub	x19, x29, #24
	b	.LBB2_1178
.LBB2_947:
	ldr	x19, [sp, #904]
	ldr	x14, [sp, #912]
	ldr	x13, [sp, #920]
	b	.LBB2_1178
.LBB2_948:
	add	x9, sp, #1248
	and	x8, x26, #0xff
	add	x0, sp, #896
	ldur	q0, [x9, #40]
	str	x8, [sp, #576]
	add	x8, sp, #576
	add	x1, sp, #576
	stur	q0, [x8, #8]
	bl	"unftp_control_message::sent::Sent::to_bytes"
	ldrb	w8, [sp, #896]
	cbnz	w8, .LBB2_970
	ldr	x19, [sp, #904]
	ldr	x14, [sp, #912]
	ldr	x13, [sp, #920]
	ldr	x22, [sp, #928]
	ldr	x15, [sp, #936]
.LBB2_950:
	ldr	x26, [sp, #48]
	mov	x10, xzr
	mov	w8, wzr
	b	.LBB2_1182
.LBB2_951:
	ldr	x9, [sp, #1072]
	ldr	x11, [sp, #1056]
	mov	x19, xzr
	ldrb	w15, [sp, #1048]
	mov	x14, xzr
	mov	x13, xzr
	cmp	x9, #0
	mov	x22, xzr
	str	x11, [sp, #72]
	cset	w11, eq
	lsl	x9, xzr, #16
	b	.LBB2_1184
.LBB2_952:
	ldp	x14, x13, [x29, #-112]
	mov	x10, xzr
	ldurb	w19, [x29, #-120]
	ldur	x22, [x29, #-96]
	b	.LBB2_1181
.LBB2_953:
	ldrb	w19, [sp, #776]
	ldr	x14, [sp, #784]
	mov	x10, xzr
	ldr	x13, [sp, #792]
	ldr	x22, [sp, #800]
	b	.LBB2_1181
.LBB2_954:
	ldrb	w19, [sp, #680]
	ldr	x14, [sp, #688]
	mov	x10, xzr
	ldr	x13, [sp, #696]
	ldr	x22, [sp, #704]
	b	.LBB2_1181
.LBB2_955:
	ldr	x22, [sp, #904]
	ldr	x15, [sp, #912]
	mov	x13, x23
	ldr	x8, [sp, #920]
	cbz	x23, .LBB2_972
	mov	x27, x22
	tbnz	x13, #63, .LBB2_965
	mov	x0, x13
	mov	w1, #1
	mov	x25, x15
	mov	x22, x13
	mov	x20, x8
	bl	rattle_alloc
	mov	x8, x20
	tbz	w0, #0, .LBB2_965
	sub	x8, x1, x24
	ldr	x26, [sp, #48]
	cmp	x8, x22
	b.hs	.LBB2_990
	mov	x13, x22
	cmp	x22, #8
	mov	x8, xzr
	b.lo	.LBB2_1037
	sub	x9, x1, x24
	mov	x15, x25
	mov	x22, x27
	cmp	x9, #32
	b.lo	.LBB2_1045
	cmp	x13, #32
	b.hs	.LBB2_1038
	mov	x8, xzr
	b	.LBB2_1042
.LBB2_963:
	mov	w8, w11
	cbnz	w11, .LBB2_969
	mov	x22, xzr
	str	x8, [sp, #72]
	mov	x15, x8
	mov	x13, x8
	mov	x19, x8
	mov	x14, x8
	b	.LBB2_985
.LBB2_965:
	ldr	x26, [sp, #48]
	cbz	x8, .LBB2_967
	mov	x0, x27
	bl	rattle_dealloc
.LBB2_967:
	mov	w27, wzr
	mov	x19, xzr
	mov	x13, xzr
	mov	x22, xzr
	mov	x15, xzr
	str	xzr, [sp, #72]
	mov	w10, #1
	mov	w9, #3
	mov	w8, wzr
	b	.LBB2_921
.LBB2_968:
	mov	x0, x1
	mov	x1, x26
	mov	x2, x14
	mov	x20, x14
	bl	memmove
	mov	x14, x20
	mov	x13, x20
	b	.LBB2_1178
.LBB2_969:
	add	x9, sp, #1248
	mov	x19, x8
	and	x8, x26, #0xff
	ldur	q0, [x9, #40]
	str	x8, [sp, #576]
	add	x8, sp, #576
	add	x0, sp, #896
	add	x1, sp, #576
	stur	q0, [x8, #8]
	bl	"unftp_control_message::sent::Sent::to_bytes"
	ldrb	w8, [sp, #896]
	cbz	w8, .LBB2_984
.LBB2_970:
	ldr	x26, [sp, #48]
	mov	w9, #3
	b	.LBB2_19
.LBB2_971:
	ldr	x26, [sp, #48]
	sub	x19, x29, #24
	b	.LBB2_1188
.LBB2_972:
	ldr	x26, [sp, #48]
	sub	x19, x29, #24
	b	.LBB2_1192
.LBB2_973:
	cmp	x2, #32
	b.hs	.LBB2_991
	mov	x8, xzr
	b	.LBB2_995
.LBB2_975:
	ldr	x8, [sp, #1200]
	cbz	x8, .LBB2_978
	ldr	x0, [sp, #1184]
.LBB2_977:
	bl	rattle_dealloc
.LBB2_978:
	ldr	x19, [sp, #1168]
	ldr	x22, [sp, #1160]
	ldr	x20, [sp, #1176]
	cbz	x19, .LBB2_983
	add	x23, x22, #16
	b	.LBB2_981
.LBB2_980:
	subs	x19, x19, #1
	add	x23, x23, #24
	b.eq	.LBB2_983
.LBB2_981:
	ldr	x8, [x23]
	cbz	x8, .LBB2_980
	ldur	x0, [x23, #-16]
	bl	rattle_dealloc
	b	.LBB2_980
.LBB2_983:
	cbnz	x20, .LBB2_1012
	b	.LBB2_1013
.LBB2_984:
	ldr	x14, [sp, #904]
	ldr	x13, [sp, #912]
	ldr	x22, [sp, #920]
	ldr	x15, [sp, #928]
	ldr	x8, [sp, #936]
	str	x8, [sp, #72]
.LBB2_985:
	ldr	x26, [sp, #48]
	mov	x10, xzr
	mov	w8, wzr
	b	.LBB2_1183
.LBB2_986:
	mov	w27, #42
	b	.LBB2_735
.LBB2_987:
	add	x0, sp, #1248
	mov	x1, x19
	bl	"core::fmt::formatter::Formatter::write_indented::<#a09238b4ff3d99c5>"
	and	w8, w0, #0xff
	tbnz	w8, #0, .LBB2_1238
	ldr	x24, [sp, #1248]
	ldr	x26, [sp, #1256]
	mov	x14, x25
	b	.LBB2_558
.LBB2_989:
	mov	x0, x1
	mov	x22, x1
	mov	x1, x24
	mov	x2, x23
	bl	memmove
	mov	x13, x23
	mov	x1, x22
	mov	x15, x25
	mov	x22, x27
	b	.LBB2_1027
.LBB2_990:
	mov	x0, x1
	mov	x22, x1
	mov	x1, x24
	mov	x2, x23
	bl	memmove
	mov	x13, x23
	mov	x1, x22
	mov	x15, x25
	mov	x22, x27
	b	.LBB2_1047
.LBB2_991:
	add	x11, x24, x22
	and	x9, x2, #0x18
	and	x8, x2, #0xffffffffffffffe0
	add	x10, x19, #16
	add	x11, x11, #16
	and	x12, x2, #0xffffffffffffffe0
.LBB2_992:
	ldp	q0, q1, [x10, #-16]
	subs	x12, x12, #32
	add	x10, x10, #32
	stp	q0, q1, [x11, #-16]
	add	x11, x11, #32
	b.ne	.LBB2_992
	cmp	x2, x8
	b.eq	.LBB2_1001
	cbz	x9, .LBB2_626
.LBB2_995:
	mov	x10, x8
	and	x8, x2, #0xfffffffffffffff8
	add	x11, x22, x10
	sub	x9, x10, x8
	add	x10, x19, x10
	add	x11, x24, x11
.LBB2_996:
	ldr	d0, [x10], #8
	adds	x9, x9, #8
	str	d0, [x11], #8
	b.ne	.LBB2_996
	cmp	x2, x8
	b.eq	.LBB2_1001
	b	.LBB2_626
.LBB2_998:
	mov	x1, x2
	add	x0, sp, #1248
	bl	"std_alloc::vec::Vec::grow_amortized::<#1908c79f2a33ade2>"
	cbz	w0, .LBB2_1238
	ldr	x27, [sp, #1264]
	ldr	x22, [sp, #1256]
	mov	x2, x23
	ldr	x24, [sp, #1248]
	add	x8, x24, x22
	sub	x8, x8, x19
	cmp	x8, x23
	b.lo	.LBB2_623
.LBB2_1000:
	add	x0, x24, x22
	mov	x1, x19
	mov	x2, x23
	bl	memmove
	mov	x2, x23
	mov	x14, x25
.LBB2_1001:
	add	x26, x22, x2
	str	x27, [sp, #1264]
	b	.LBB2_558
.LBB2_1002:
	bl	"unftp_control_codecs::line_parser::parser::word_len"
	add	x25, x0, #4
	b	.LBB2_525
.LBB2_1003:
	add	x0, sp, #1160
	mov	x22, x1
	bl	"std_alloc::vec::Vec::grow_amortized::<#0802a6bb4cff063a>"
	cbz	w0, .LBB2_1005
	ldr	x20, [sp, #1168]
	mov	x1, x22
	b	.LBB2_746
.LBB2_1005:
	mov	x0, x22
	bl	rattle_dealloc
	ldr	x20, [sp, #1168]
.LBB2_1006:
	ldr	x22, [sp, #1160]
	ldr	x19, [sp, #1176]
	cbz	x20, .LBB2_1011
	add	x23, x22, #16
	b	.LBB2_1009
.LBB2_1008:
	subs	x20, x20, #1
	add	x23, x23, #24
	b.eq	.LBB2_1011
.LBB2_1009:
	ldr	x8, [x23]
	cbz	x8, .LBB2_1008
	ldur	x0, [x23, #-16]
	bl	rattle_dealloc
	b	.LBB2_1008
.LBB2_1011:
	cbz	x19, .LBB2_1013
.LBB2_1012:
	mov	x0, x22
	bl	rattle_dealloc
.LBB2_1013:
	movi	v0.2d, #0000000000000000
	str	xzr, [sp, #1152]
.LBB2_1014:
	mov	w19, #1
	mov	w20, #10
	str	q0, [sp, #1136]
	str	q0, [sp, #1120]
	str	q0, [sp, #1104]
	str	q0, [sp, #1088]
	str	q0, [sp, #1072]
	str	q0, [sp, #1056]
	str	q0, [sp, #1040]
.LBB2_1015:
	mov	x0, x24
	bl	rattle_dealloc
	ldr	q0, [sp, #1088]
	ldr	q1, [sp, #1072]
	add	x10, sp, #896
	ldr	q2, [sp, #1040]
	ldr	x8, [sp, #1152]
	lsr	x13, x20, #8
	stp	q1, q0, [x10, #48]
	ldr	q0, [sp, #1056]
	and	x14, x20, #0xff
	ldr	q1, [sp, #1120]
	stur	x8, [x10, #128]
	mov	w12, w19
	stp	q2, q0, [x10, #16]
	ldr	q0, [sp, #1136]
	stp	q1, q0, [x10, #96]
	ldr	q0, [sp, #1104]
	stur	q0, [x10, #80]
	ldr	x8, [sp, #928]
	ldr	x24, [sp, #912]
	ldr	x26, [sp, #920]
	str	x8, [sp, #72]
	ldr	x8, [sp, #936]
	str	x8, [sp, #64]
.LBB2_1016:
	ldp	q0, q1, [x10, #80]
	mov	x8, xzr
	ldur	q2, [x10, #112]
	ldur	x9, [x10, #128]
	stp	q0, q1, [sp, #800]
	ldp	q0, q1, [x10, #48]
	str	q2, [sp, #832]
	b	.LBB2_50
.LBB2_1017:
	mov	x15, x25
	mov	x22, x27
	b	.LBB2_1025
.LBB2_1018:
	and	x9, x13, #0x18
	and	x8, x13, #0x7fffffffffffffe0
	add	x10, x24, #16
	add	x11, x1, #16
	and	x12, x13, #0x7fffffffffffffe0
.LBB2_1019:
	ldp	q0, q1, [x10, #-16]
	subs	x12, x12, #32
	add	x10, x10, #32
	stp	q0, q1, [x11, #-16]
	add	x11, x11, #32
	b.ne	.LBB2_1019
	cmp	x13, x8
	b.eq	.LBB2_1027
	cbz	x9, .LBB2_1025
.LBB2_1022:
	mov	x11, x8
	and	x8, x13, #0x7ffffffffffffff8
	sub	x9, x11, x8
	add	x10, x24, x11
	add	x11, x1, x11
.LBB2_1023:
	ldr	d0, [x10], #8
	adds	x9, x9, #8
	str	d0, [x11], #8
	b.ne	.LBB2_1023
	cmp	x13, x8
	b.eq	.LBB2_1027
.LBB2_1025:
	sub	x9, x13, x8
	add	x10, x24, x8
	add	x8, x1, x8
.LBB2_1026:
	ldrb	w11, [x10], #1
	subs	x9, x9, #1
	strb	w11, [x8], #1
	b.ne	.LBB2_1026
.LBB2_1027:
	cmp	x13, #8
	b.hs	.LBB2_1029
	mov	x8, xzr
	b	.LBB2_1185
.LBB2_1029:
	cmp	x13, #32
	b.hs	.LBB2_1031
	mov	x8, xzr
	b	.LBB2_1035
.LBB2_1031:
	and	x9, x13, #0x18
	and	x8, x13, #0x7fffffffffffffe0
	add	x10, x1, #16
	and	x11, x13, #0x7fffffffffffffe0
.LBB2_1032:
	movi	v0.16b, #159
	ldp	q1, q2, [x10, #-16]
	movi	v3.16b, #26
	movi	v5.16b, #224
	subs	x11, x11, #32
	add	v4.16b, v1.16b, v0.16b
	add	v0.16b, v2.16b, v0.16b
	cmhi	v4.16b, v3.16b, v4.16b
	cmhi	v0.16b, v3.16b, v0.16b
	and	v3.16b, v4.16b, v5.16b
	and	v0.16b, v0.16b, v5.16b
	add	v1.16b, v1.16b, v3.16b
	add	v0.16b, v2.16b, v0.16b
	stp	q1, q0, [x10, #-16]
	add	x10, x10, #32
	b.ne	.LBB2_1032
	cmp	x13, x8
	b.eq	.LBB2_1187
	cbz	x9, .LBB2_1185
.LBB2_1035:
	mov	x9, x8
	and	x8, x13, #0x7ffffffffffffff8
.LBB2_1036:
	movi	v0.8b, #159
	ldr	d1, [x1, x9]
	movi	v2.8b, #26
	movi	v3.8b, #224
	add	v0.8b, v1.8b, v0.8b
	cmhi	v0.8b, v2.8b, v0.8b
	and	v0.8b, v0.8b, v3.8b
	add	v0.8b, v1.8b, v0.8b
	str	d0, [x1, x9]
	add	x9, x9, #8
	cmp	x8, x9
	b.ne	.LBB2_1036
	b	.LBB2_1186
.LBB2_1037:
	mov	x15, x25
	mov	x22, x27
	b	.LBB2_1045
.LBB2_1038:
	and	x9, x13, #0x18
	and	x8, x13, #0x7fffffffffffffe0
	add	x10, x24, #16
	add	x11, x1, #16
	and	x12, x13, #0x7fffffffffffffe0
.LBB2_1039:
	ldp	q0, q1, [x10, #-16]
	subs	x12, x12, #32
	add	x10, x10, #32
	stp	q0, q1, [x11, #-16]
	add	x11, x11, #32
	b.ne	.LBB2_1039
	cmp	x13, x8
	b.eq	.LBB2_1047
	cbz	x9, .LBB2_1045
.LBB2_1042:
	mov	x11, x8
	and	x8, x13, #0x7ffffffffffffff8
	sub	x9, x11, x8
	add	x10, x24, x11
	add	x11, x1, x11
.LBB2_1043:
	ldr	d0, [x10], #8
	adds	x9, x9, #8
	str	d0, [x11], #8
	b.ne	.LBB2_1043
	cmp	x13, x8
	b.eq	.LBB2_1047
.LBB2_1045:
	sub	x9, x13, x8
	add	x10, x24, x8
	add	x8, x1, x8
.LBB2_1046:
	ldrb	w11, [x10], #1
	subs	x9, x9, #1
	strb	w11, [x8], #1
	b.ne	.LBB2_1046
.LBB2_1047:
	cmp	x13, #8
	b.hs	.LBB2_1049
	mov	x8, xzr
	b	.LBB2_1189
.LBB2_1049:
	cmp	x13, #32
	b.hs	.LBB2_1051
	mov	x8, xzr
	b	.LBB2_1055
.LBB2_1051:
	and	x9, x13, #0x18
	and	x8, x13, #0x7fffffffffffffe0
	add	x10, x1, #16
	and	x11, x13, #0x7fffffffffffffe0
.LBB2_1052:
	movi	v0.16b, #159
	ldp	q1, q2, [x10, #-16]
	movi	v3.16b, #26
	movi	v5.16b, #224
	subs	x11, x11, #32
	add	v4.16b, v1.16b, v0.16b
	add	v0.16b, v2.16b, v0.16b
	cmhi	v4.16b, v3.16b, v4.16b
	cmhi	v0.16b, v3.16b, v0.16b
	and	v3.16b, v4.16b, v5.16b
	and	v0.16b, v0.16b, v5.16b
	add	v1.16b, v1.16b, v3.16b
	add	v0.16b, v2.16b, v0.16b
	stp	q1, q0, [x10, #-16]
	add	x10, x10, #32
	b.ne	.LBB2_1052
	cmp	x13, x8
	b.eq	.LBB2_1191
	cbz	x9, .LBB2_1189
.LBB2_1055:
	mov	x9, x8
	and	x8, x13, #0x7ffffffffffffff8
.LBB2_1056:
	movi	v0.8b, #159
	ldr	d1, [x1, x9]
	movi	v2.8b, #26
	movi	v3.8b, #224
	add	v0.8b, v1.8b, v0.8b
	cmhi	v0.8b, v2.8b, v0.8b
	and	v0.8b, v0.8b, v3.8b
	add	v0.8b, v1.8b, v0.8b
	str	d0, [x1, x9]
	add	x9, x9, #8
	cmp	x8, x9
	b.ne	.LBB2_1056
	b	.LBB2_1190
.LBB2_1057:
	and	x9, x14, #0x18
	and	x8, x14, #0x7fffffffffffffe0
	add	x10, x26, #16
	add	x11, x19, #16
	and	x12, x14, #0x7fffffffffffffe0
.LBB2_1058:
	ldp	q0, q1, [x10, #-16]
	subs	x12, x12, #32
	add	x10, x10, #32
	stp	q0, q1, [x11, #-16]
	add	x11, x11, #32
	b.ne	.LBB2_1058
	cmp	x14, x8
	b.eq	.LBB2_1168
	ldr	x28, [sp, #56]
	cbz	x9, .LBB2_1064
.LBB2_1061:
	mov	x9, x8
	and	x8, x14, #0x7ffffffffffffff8
	mov	x10, x19
.LBB2_1062:
	ldr	d0, [x26, x9]
	str	d0, [x10, x9]
	add	x9, x9, #8
	cmp	x8, x9
	b.ne	.LBB2_1062
	cmp	x14, x8
	b.eq	.LBB2_1177
.LBB2_1064:
	mov	x10, x19
.LBB2_1065:
	ldrb	w9, [x26, x8]
	strb	w9, [x10, x8]
	add	x8, x8, #1
	cmp	x14, x8
	b.ne	.LBB2_1065
	b	.LBB2_1177
.LBB2_1066:
	and	x9, x14, #0x18
	and	x8, x14, #0x7fffffffffffffe0
	add	x10, x26, #16
	add	x11, x19, #16
	and	x12, x14, #0x7fffffffffffffe0
.LBB2_1067:
	ldp	q0, q1, [x10, #-16]
	subs	x12, x12, #32
	add	x10, x10, #32
	stp	q0, q1, [x11, #-16]
	add	x11, x11, #32
	b.ne	.LBB2_1067
	cmp	x14, x8
	b.eq	.LBB2_1168
	ldr	x28, [sp, #56]
	cbz	x9, .LBB2_1073
.LBB2_1070:
	mov	x9, x8
	and	x8, x14, #0x7ffffffffffffff8
	mov	x10, x19
.LBB2_1071:
	ldr	d0, [x26, x9]
	str	d0, [x10, x9]
	add	x9, x9, #8
	cmp	x8, x9
	b.ne	.LBB2_1071
	cmp	x14, x8
	b.eq	.LBB2_1177
.LBB2_1073:
	mov	x10, x19
.LBB2_1074:
	ldrb	w9, [x26, x8]
	strb	w9, [x10, x8]
	add	x8, x8, #1
	cmp	x14, x8
	b.ne	.LBB2_1074
	b	.LBB2_1177
.LBB2_1075:
	and	x9, x14, #0x18
	and	x8, x14, #0x7fffffffffffffe0
	add	x10, x26, #16
	add	x11, x19, #16
	and	x12, x14, #0x7fffffffffffffe0
.LBB2_1076:
	ldp	q0, q1, [x10, #-16]
	subs	x12, x12, #32
	add	x10, x10, #32
	stp	q0, q1, [x11, #-16]
	add	x11, x11, #32
	b.ne	.LBB2_1076
	cmp	x14, x8
	b.eq	.LBB2_1168
	ldr	x28, [sp, #56]
	cbz	x9, .LBB2_1082
.LBB2_1079:
	mov	x9, x8
	and	x8, x14, #0x7ffffffffffffff8
	mov	x10, x19
.LBB2_1080:
	ldr	d0, [x26, x9]
	str	d0, [x10, x9]
	add	x9, x9, #8
	cmp	x8, x9
	b.ne	.LBB2_1080
	cmp	x14, x8
	b.eq	.LBB2_1177
.LBB2_1082:
	mov	x10, x19
.LBB2_1083:
	ldrb	w9, [x26, x8]
	strb	w9, [x10, x8]
	add	x8, x8, #1
	cmp	x14, x8
	b.ne	.LBB2_1083
	b	.LBB2_1177
.LBB2_1084:
	and	x9, x14, #0x18
	and	x8, x14, #0x7fffffffffffffe0
	add	x10, x26, #16
	add	x11, x19, #16
	and	x12, x14, #0x7fffffffffffffe0
.LBB2_1085:
	ldp	q0, q1, [x10, #-16]
	subs	x12, x12, #32
	add	x10, x10, #32
	stp	q0, q1, [x11, #-16]
	add	x11, x11, #32
	b.ne	.LBB2_1085
	cmp	x14, x8
	b.eq	.LBB2_1168
	ldr	x28, [sp, #56]
	cbz	x9, .LBB2_1091
.LBB2_1088:
	mov	x9, x8
	and	x8, x14, #0x7ffffffffffffff8
	mov	x10, x19
.LBB2_1089:
	ldr	d0, [x26, x9]
	str	d0, [x10, x9]
	add	x9, x9, #8
	cmp	x8, x9
	b.ne	.LBB2_1089
	cmp	x14, x8
	b.eq	.LBB2_1177
.LBB2_1091:
	mov	x10, x19
.LBB2_1092:
	ldrb	w9, [x26, x8]
	strb	w9, [x10, x8]
	add	x8, x8, #1
	cmp	x14, x8
	b.ne	.LBB2_1092
	b	.LBB2_1177
.LBB2_1093:
	and	x9, x14, #0x18
	and	x8, x14, #0x7fffffffffffffe0
	add	x10, x26, #16
	add	x11, x19, #16
	and	x12, x14, #0x7fffffffffffffe0
.LBB2_1094:
	ldp	q0, q1, [x10, #-16]
	subs	x12, x12, #32
	add	x10, x10, #32
	stp	q0, q1, [x11, #-16]
	add	x11, x11, #32
	b.ne	.LBB2_1094
	cmp	x14, x8
	b.eq	.LBB2_1168
	ldr	x28, [sp, #56]
	cbz	x9, .LBB2_1100
.LBB2_1097:
	mov	x9, x8
	and	x8, x14, #0x7ffffffffffffff8
	mov	x10, x19
.LBB2_1098:
	ldr	d0, [x26, x9]
	str	d0, [x10, x9]
	add	x9, x9, #8
	cmp	x8, x9
	b.ne	.LBB2_1098
	cmp	x14, x8
	b.eq	.LBB2_1177
.LBB2_1100:
	mov	x10, x19
.LBB2_1101:
	ldrb	w9, [x26, x8]
	strb	w9, [x10, x8]
	add	x8, x8, #1
	cmp	x14, x8
	b.ne	.LBB2_1101
	b	.LBB2_1177
.LBB2_1102:
	and	x9, x14, #0x18
	and	x8, x14, #0x7fffffffffffffe0
	add	x10, x26, #16
	add	x11, x19, #16
	and	x12, x14, #0x7fffffffffffffe0
.LBB2_1103:
	ldp	q0, q1, [x10, #-16]
	subs	x12, x12, #32
	add	x10, x10, #32
	stp	q0, q1, [x11, #-16]
	add	x11, x11, #32
	b.ne	.LBB2_1103
	cmp	x14, x8
	b.eq	.LBB2_1168
	ldr	x28, [sp, #56]
	cbz	x9, .LBB2_1109
.LBB2_1106:
	mov	x9, x8
	and	x8, x14, #0x7ffffffffffffff8
	mov	x10, x19
.LBB2_1107:
	ldr	d0, [x26, x9]
	str	d0, [x10, x9]
	add	x9, x9, #8
	cmp	x8, x9
	b.ne	.LBB2_1107
	cmp	x14, x8
	b.eq	.LBB2_1177
.LBB2_1109:
	mov	x10, x19
.LBB2_1110:
	ldrb	w9, [x26, x8]
	strb	w9, [x10, x8]
	add	x8, x8, #1
	cmp	x14, x8
	b.ne	.LBB2_1110
	b	.LBB2_1177
.LBB2_1111:
	and	x9, x14, #0x18
	and	x8, x14, #0x7fffffffffffffe0
	add	x10, x26, #16
	add	x11, x19, #16
	and	x12, x14, #0x7fffffffffffffe0
.LBB2_1112:
	ldp	q0, q1, [x10, #-16]
	subs	x12, x12, #32
	add	x10, x10, #32
	stp	q0, q1, [x11, #-16]
	add	x11, x11, #32
	b.ne	.LBB2_1112
	cmp	x14, x8
	b.eq	.LBB2_1168
	ldr	x28, [sp, #56]
	cbz	x9, .LBB2_1118
.LBB2_1115:
	mov	x9, x8
	and	x8, x14, #0x7ffffffffffffff8
	mov	x10, x19
.LBB2_1116:
	ldr	d0, [x26, x9]
	str	d0, [x10, x9]
	add	x9, x9, #8
	cmp	x8, x9
	b.ne	.LBB2_1116
	cmp	x14, x8
	b.eq	.LBB2_1177
.LBB2_1118:
	mov	x10, x19
.LBB2_1119:
	ldrb	w9, [x26, x8]
	strb	w9, [x10, x8]
	add	x8, x8, #1
	cmp	x14, x8
	b.ne	.LBB2_1119
	b	.LBB2_1177
.LBB2_1120:
	and	x9, x14, #0x18
	and	x8, x14, #0x7fffffffffffffe0
	add	x10, x26, #16
	add	x11, x19, #16
	and	x12, x14, #0x7fffffffffffffe0
.LBB2_1121:
	ldp	q0, q1, [x10, #-16]
	subs	x12, x12, #32
	add	x10, x10, #32
	stp	q0, q1, [x11, #-16]
	add	x11, x11, #32
	b.ne	.LBB2_1121
	cmp	x14, x8
	b.eq	.LBB2_1168
	ldr	x28, [sp, #56]
	cbz	x9, .LBB2_1127
.LBB2_1124:
	mov	x9, x8
	and	x8, x14, #0x7ffffffffffffff8
	mov	x10, x19
.LBB2_1125:
	ldr	d0, [x26, x9]
	str	d0, [x10, x9]
	add	x9, x9, #8
	cmp	x8, x9
	b.ne	.LBB2_1125
	cmp	x14, x8
	b.eq	.LBB2_1177
.LBB2_1127:
	mov	x10, x19
.LBB2_1128:
	ldrb	w9, [x26, x8]
	strb	w9, [x10, x8]
	add	x8, x8, #1
	cmp	x14, x8
	b.ne	.LBB2_1128
	b	.LBB2_1177
.LBB2_1129:
	and	x9, x14, #0x18
	and	x8, x14, #0x7fffffffffffffe0
	add	x10, x26, #16
	add	x11, x19, #16
	and	x12, x14, #0x7fffffffffffffe0
.LBB2_1130:
	ldp	q0, q1, [x10, #-16]
	subs	x12, x12, #32
	add	x10, x10, #32
	stp	q0, q1, [x11, #-16]
	add	x11, x11, #32
	b.ne	.LBB2_1130
	cmp	x14, x8
	b.eq	.LBB2_1168
	ldr	x28, [sp, #56]
	cbz	x9, .LBB2_1136
.LBB2_1133:
	mov	x9, x8
	and	x8, x14, #0x7ffffffffffffff8
	mov	x10, x19
.LBB2_1134:
	ldr	d0, [x26, x9]
	str	d0, [x10, x9]
	add	x9, x9, #8
	cmp	x8, x9
	b.ne	.LBB2_1134
	cmp	x14, x8
	b.eq	.LBB2_1177
.LBB2_1136:
	mov	x10, x19
.LBB2_1137:
	ldrb	w9, [x26, x8]
	strb	w9, [x10, x8]
	add	x8, x8, #1
	cmp	x14, x8
	b.ne	.LBB2_1137
	b	.LBB2_1177
.LBB2_1138:
	and	x9, x14, #0x18
	and	x8, x14, #0x7fffffffffffffe0
	add	x10, x26, #16
	add	x11, x19, #16
	and	x12, x14, #0x7fffffffffffffe0
.LBB2_1139:
	ldp	q0, q1, [x10, #-16]
	subs	x12, x12, #32
	add	x10, x10, #32
	stp	q0, q1, [x11, #-16]
	add	x11, x11, #32
	b.ne	.LBB2_1139
	cmp	x14, x8
	b.eq	.LBB2_1168
	ldr	x28, [sp, #56]
	cbz	x9, .LBB2_1145
.LBB2_1142:
	mov	x9, x8
	and	x8, x14, #0x7ffffffffffffff8
	mov	x10, x19
.LBB2_1143:
	ldr	d0, [x26, x9]
	str	d0, [x10, x9]
	add	x9, x9, #8
	cmp	x8, x9
	b.ne	.LBB2_1143
	cmp	x14, x8
	b.eq	.LBB2_1177
.LBB2_1145:
	mov	x10, x19
.LBB2_1146:
	ldrb	w9, [x26, x8]
	strb	w9, [x10, x8]
	add	x8, x8, #1
	cmp	x14, x8
	b.ne	.LBB2_1146
	b	.LBB2_1177
.LBB2_1147:
	and	x9, x14, #0x18
	and	x8, x14, #0x7fffffffffffffe0
	add	x10, x26, #16
	add	x11, x19, #16
	and	x12, x14, #0x7fffffffffffffe0
.LBB2_1148:
	ldp	q0, q1, [x10, #-16]
	subs	x12, x12, #32
	add	x10, x10, #32
	stp	q0, q1, [x11, #-16]
	add	x11, x11, #32
	b.ne	.LBB2_1148
	cmp	x14, x8
	b.eq	.LBB2_1168
	ldr	x28, [sp, #56]
	cbz	x9, .LBB2_1154
.LBB2_1151:
	mov	x9, x8
	and	x8, x14, #0x7ffffffffffffff8
	mov	x10, x19
.LBB2_1152:
	ldr	d0, [x26, x9]
	str	d0, [x10, x9]
	add	x9, x9, #8
	cmp	x8, x9
	b.ne	.LBB2_1152
	cmp	x14, x8
	b.eq	.LBB2_1177
.LBB2_1154:
	mov	x10, x19
.LBB2_1155:
	ldrb	w9, [x26, x8]
	strb	w9, [x10, x8]
	add	x8, x8, #1
	cmp	x14, x8
	b.ne	.LBB2_1155
	b	.LBB2_1177
.LBB2_1156:
	and	x9, x14, #0x18
	and	x8, x14, #0x7fffffffffffffe0
	add	x10, x26, #16
	add	x11, x19, #16
	and	x12, x14, #0x7fffffffffffffe0
.LBB2_1157:
	ldp	q0, q1, [x10, #-16]
	subs	x12, x12, #32
	add	x10, x10, #32
	stp	q0, q1, [x11, #-16]
	add	x11, x11, #32
	b.ne	.LBB2_1157
	cmp	x14, x8
	b.eq	.LBB2_1168
	ldr	x28, [sp, #56]
	cbz	x9, .LBB2_1163
.LBB2_1160:
	mov	x9, x8
	and	x8, x14, #0x7ffffffffffffff8
	mov	x10, x19
.LBB2_1161:
	ldr	d0, [x26, x9]
	str	d0, [x10, x9]
	add	x9, x9, #8
	cmp	x8, x9
	b.ne	.LBB2_1161
	cmp	x14, x8
	b.eq	.LBB2_1177
.LBB2_1163:
	mov	x10, x19
.LBB2_1164:
	ldrb	w9, [x26, x8]
	strb	w9, [x10, x8]
	add	x8, x8, #1
	cmp	x14, x8
	b.ne	.LBB2_1164
	b	.LBB2_1177
.LBB2_1165:
	and	x9, x14, #0x18
	and	x8, x14, #0x7fffffffffffffe0
	add	x10, x26, #16
	add	x11, x19, #16
	and	x12, x14, #0x7fffffffffffffe0
.LBB2_1166:
	ldp	q0, q1, [x10, #-16]
	subs	x12, x12, #32
	add	x10, x10, #32
	stp	q0, q1, [x11, #-16]
	add	x11, x11, #32
	b.ne	.LBB2_1166
	cmp	x14, x8
	b.ne	.LBB2_1171
.LBB2_1168:
	ldp	x26, x28, [sp, #48]
	mov	x13, x14
	b	.LBB2_1179
.LBB2_1169:
	cbz	x25, .LBB2_978
	mov	x0, x23
	b	.LBB2_977
.LBB2_1171:
	ldr	x28, [sp, #56]
	cbz	x9, .LBB2_1175
.LBB2_1172:
	mov	x9, x8
	and	x8, x14, #0x7ffffffffffffff8
	mov	x10, x19
.LBB2_1173:
	ldr	d0, [x26, x9]
	str	d0, [x10, x9]
	add	x9, x9, #8
	cmp	x8, x9
	b.ne	.LBB2_1173
	cmp	x14, x8
	b.eq	.LBB2_1177
.LBB2_1175:
	mov	x10, x19
.LBB2_1176:
	ldrb	w9, [x26, x8]
	strb	w9, [x10, x8]
	add	x8, x8, #1
	cmp	x14, x8
	b.ne	.LBB2_1176
.LBB2_1177:
	mov	x13, x14
.LBB2_1178:
	ldr	x26, [sp, #48]
.LBB2_1179:
	mov	x10, xzr
	mov	w8, wzr
.LBB2_1180:
	mov	x22, xzr
.LBB2_1181:
	mov	x15, xzr
.LBB2_1182:
	str	xzr, [sp, #72]
.LBB2_1183:
	mov	w11, #1
	lsl	x9, x10, #16
.LBB2_1184:
	mov	w8, w8
	orr	x8, x9, x8, lsl #8
	and	x9, x27, #0xff
	orr	x25, x8, x9
	mov	w8, #1
	ldurb	w9, [x26, #72]
	cbnz	w9, .LBB2_22
	b	.LBB2_25
.LBB2_1185:
	ldrb	w9, [x1, x8]
	sub	w10, w9, #97
	sub	w11, w9, #32
	cmp	w10, #26
	csel	w9, w11, w9, lo
	strb	w9, [x1, x8]
	add	x8, x8, #1
.LBB2_1186:
	cmp	x13, x8
	b.ne	.LBB2_1185
.LBB2_1187:
	mov	x19, x1
	mov	x8, x20
.LBB2_1188:
	str	x8, [sp, #72]
	mov	w9, wzr
	mov	w10, wzr
	mov	w27, #43
	mov	w8, wzr
	b	.LBB2_921
.LBB2_1189:
	ldrb	w9, [x1, x8]
	sub	w10, w9, #97
	sub	w11, w9, #32
	cmp	w10, #26
	csel	w9, w11, w9, lo
	strb	w9, [x1, x8]
	add	x8, x8, #1
.LBB2_1190:
	cmp	x13, x8
	b.ne	.LBB2_1189
.LBB2_1191:
	mov	x19, x1
	mov	x8, x20
.LBB2_1192:
	str	x8, [sp, #72]
	mov	w9, wzr
	mov	w10, wzr
	mov	w27, #42
	mov	w8, wzr
	b	.LBB2_921
.LBB2_1193:
	ldp	x11, x15, [sp, #32]
	and	x8, x20, #0xffffffffffff0000
	ldp	w14, w13, [sp, #16]
	ldr	x21, [sp]
	ldr	x16, [sp, #24]
	mov	x12, x22
	b	.LBB2_1221
.LBB2_1194:
	ldr	x21, [sp]
	mov	x12, x24
.LBB2_1195:
	ldp	q0, q1, [sp, #416]
	lsr	x24, x12, #8
	ldr	q2, [sp, #448]
	ldr	x8, [sp, #464]
	lsr	x23, x12, #16
	ldr	x14, [sp, #72]
	lsr	x28, x26, #8
	lsr	x16, x26, #16
	stp	q0, q1, [sp, #128]
	ldp	q0, q1, [sp, #384]
	str	q2, [sp, #160]
	lsr	x11, x14, #8
	lsr	x15, x14, #16
	str	x8, [sp, #176]
	and	x8, x20, #0xffffffffffff0000
	mov	w19, #3
	b	.LBB2_1222
.LBB2_1196:
	sub	x12, x9, x8
.LBB2_1197:
	ldrb	w13, [x26, #32]
	ldr	x17, [sp]
	str	x12, [x26]
	tbnz	w13, #0, .LBB2_1200
	ldrb	w12, [x26, #16]
	cmp	w12, #1
	b.ne	.LBB2_1202
	ldr	x12, [x26, #24]
	cmp	x12, x11
	b.hi	.LBB2_1202
.LBB2_1200:
	mov	w12, #1
	cmp	x9, x8
	str	xzr, [x26]
	strb	w12, [x26, #32]
	b.eq	.LBB2_1202
	ldr	x8, [x26, #96]
	str	x9, [x26, #64]
	adds	x8, x11, x8
	csinv	x8, x8, xzr, lo
	str	x8, [x26, #96]
	mov	x8, x9
.LBB2_1202:
	cbz	x8, .LBB2_1236
	subs	x11, x9, x8
	b.eq	.LBB2_1234
	cmp	x11, #8
	mov	x12, xzr
	b.lo	.LBB2_1231
	add	x13, x8, #31
	cmp	x13, #32
	b.lo	.LBB2_1231
	cmp	x11, #32
	b.hs	.LBB2_1224
	mov	x12, xzr
	b	.LBB2_1228
.LBB2_1208:
	ldp	q1, q2, [sp, #224]
	movi	v0.2d, #0000000000000000
	ldr	x10, [sp]
	ldr	x9, [sp, #272]
	mov	w8, #256
	stur	q1, [x10, #88]
	ldr	q1, [sp, #256]
	stur	q0, [x10, #8]
	stur	q0, [x10, #24]
	stur	q0, [x10, #40]
	stur	q1, [x10, #120]
	ldp	q0, q1, [sp, #192]
	stur	q2, [x10, #104]
	strh	w8, [x10]
	stur	q0, [x10, #56]
	str	x9, [x10, #136]
	stur	q1, [x10, #72]
	b	.LBB2_1237
.LBB2_1209:
	ldr	x24, [sp, #80]
	mov	w8, wzr
	ldur	x9, [x21, #8]
	cbz	x9, .LBB2_1211
.LBB2_1210:
	stur	xzr, [x21, #8]
.LBB2_1211:
	cbz	w8, .LBB2_1213
	ldr	x21, [sp]
	b	.LBB2_1218
.LBB2_1213:
	ldr	x21, [sp]
	cbz	x26, .LBB2_1218
	add	x19, x24, #16
	b	.LBB2_1216
.LBB2_1215:
	subs	x26, x26, #1
	add	x19, x19, #24
	b.eq	.LBB2_1218
.LBB2_1216:
	ldr	x8, [x19]
	cbz	x8, .LBB2_1215
	ldur	x0, [x19, #-16]
	bl	rattle_dealloc
	b	.LBB2_1215
.LBB2_1218:
	ldr	x8, [sp, #72]
	cbz	x8, .LBB2_1220
	mov	x0, x24
	bl	rattle_dealloc
.LBB2_1220:
	ldp	q0, q1, [x29, #-128]
	mov	w12, wzr
	ldr	x9, [sp, #608]
	ldur	q2, [x29, #-96]
	mov	w24, wzr
	mov	x23, xzr
	mov	w14, wzr
	mov	w28, wzr
	stp	q0, q1, [sp, #288]
	ldp	q0, q1, [sp, #576]
	mov	x16, xzr
	mov	w13, wzr
	mov	w11, wzr
	mov	x15, xzr
	mov	x8, xzr
	mov	x20, xzr
	add	x10, sp, #288
	mov	w19, #4
	str	xzr, [sp, #64]
	stur	x9, [x10, #80]
	str	q2, [sp, #320]
	stp	q0, q1, [x10, #48]
.LBB2_1221:
	ldp	q0, q1, [sp, #320]
	mov	w26, w14
	ldr	q2, [sp, #352]
	ldr	x9, [sp, #368]
	mov	w14, w13
	stp	q0, q1, [sp, #128]
	ldp	q0, q1, [sp, #288]
	str	q2, [sp, #160]
	str	x9, [sp, #176]
.LBB2_1222:
	stp	q0, q1, [sp, #96]
	ubfiz	x10, x24, #8, #8
	and	x9, x20, #0xffff
	mov	w13, #1
	ldp	q0, q1, [sp, #128]
	orr	x8, x9, x8
	orr	x9, x10, x23, lsl #16
	ubfiz	x10, x28, #8, #8
	ubfiz	x11, x11, #8, #8
	stp	x19, x8, [x21, #8]
	ldr	x8, [sp, #176]
	orr	x10, x10, x16, lsl #16
	stur	q0, [x21, #88]
	ldr	q0, [sp, #160]
	bfxil	x9, x12, #0, #8
	orr	x11, x11, x15, lsl #16
	stur	q1, [x21, #104]
	bfxil	x10, x26, #0, #8
	stur	q0, [x21, #120]
	mov	w12, w14
	ldp	q1, q0, [sp, #96]
	bfxil	x11, x12, #0, #8
	stp	x9, x10, [x21, #24]
	ldr	x9, [sp, #64]
	strh	w13, [x21]
	stur	q1, [x21, #56]
	stp	x11, x9, [x21, #40]
	str	x8, [x21, #136]
	stur	q0, [x21, #72]
	b	.LBB2_1237
.LBB2_1223:
	movi	v0.2d, #0000000000000000
	ldr	x9, [sp]
	mov	w8, #4
	strh	w11, [x9]
	str	x8, [x9, #8]
	stp	q0, q0, [x9, #16]
	stp	q0, q0, [x9, #48]
	stp	q0, q0, [x9, #80]
	stp	q0, q0, [x9, #112]
	b	.LBB2_1237
.LBB2_1224:
	and	x13, x11, #0x18
	and	x12, x11, #0xffffffffffffffe0
	mov	x14, x10
	and	x15, x11, #0xffffffffffffffe0
.LBB2_1225:
	add	x16, x14, x8
	subs	x15, x15, #32
	ldp	q0, q1, [x16]
	stp	q0, q1, [x14], #32
	b.ne	.LBB2_1225
	cmp	x11, x12
	b.eq	.LBB2_1233
	cbz	x13, .LBB2_1231
.LBB2_1228:
	mov	x14, x12
	and	x12, x11, #0xfffffffffffffff8
	sub	x13, x14, x12
	add	x14, x10, x14
.LBB2_1229:
	ldr	d0, [x14, x8]
	adds	x13, x13, #8
	str	d0, [x14], #8
	b.ne	.LBB2_1229
	cmp	x11, x12
	b.eq	.LBB2_1233
.LBB2_1231:
	add	x13, x12, x8
	add	x10, x10, x12
	sub	x9, x9, x13
.LBB2_1232:
	ldrb	w12, [x10, x8]
	subs	x9, x9, #1
	strb	w12, [x10], #1
	b.ne	.LBB2_1232
.LBB2_1233:
	ldr	x9, [x26, #48]
.LBB2_1234:
	cmp	x9, x11
	b.ls	.LBB2_1236
	str	x11, [x26, #48]
.LBB2_1236:
	movi	v0.2d, #0000000000000000
	ldp	q1, q2, [sp, #224]
	str	xzr, [x26, #64]
	ldr	x8, [sp, #272]
	strh	wzr, [x17]
	stur	q1, [x17, #88]
	stur	q0, [x17, #8]
	stur	q0, [x17, #24]
	stur	q0, [x17, #40]
	ldr	q0, [sp, #256]
	stur	q2, [x17, #104]
	stur	q0, [x17, #120]
	ldp	q1, q0, [sp, #192]
	str	x8, [x17, #136]
	stur	q1, [x17, #56]
	stur	q0, [x17, #72]
.LBB2_1237:
	add	sp, sp, #1520
	ldp	x20, x19, [sp, #80]
	ldp	x22, x21, [sp, #64]
	ldp	x24, x23, [sp, #48]
	ldp	x26, x25, [sp, #32]
	ldp	x28, x27, [sp, #16]
	ldp	x29, x30, [sp], #96
	ret
.LBB2_1238:
	ldr	x8, [sp, #1264]
	cbz	x8, .LBB2_1240
	ldr	x0, [sp, #1248]
	bl	rattle_dealloc
.LBB2_1240:
	ldr	x21, [sp]
	cmp	w20, #6
	b.ne	.LBB2_1247
	cbnz	x25, .LBB2_1246
	b	.LBB2_1247
.LBB2_1242:
	ldr	x8, [sp, #1264]
	cbz	x8, .LBB2_1244
	ldr	x0, [sp, #1248]
	bl	rattle_dealloc
.LBB2_1244:
	ldr	x21, [sp]
	cmp	w20, #6
	b.ne	.LBB2_1247
	cbz	x26, .LBB2_1247
.LBB2_1246:
	mov	x0, x19
	bl	rattle_dealloc
.LBB2_1247:
	movi	v0.2d, #0000000000000000
	str	xzr, [sp, #848]
	mov	x12, xzr
	stp	xzr, xzr, [sp, #64]
	mov	x26, xzr
	str	xzr, [sp, #752]
	mov	w20, #10
	str	xzr, [sp, #656]
	stp	q0, q0, [sp, #784]
	str	q0, [sp, #768]
	stp	q0, q0, [sp, #816]
	ldp	q1, q2, [sp, #768]
	ldp	q3, q0, [sp, #816]
	str	xzr, [sp, #464]
	stp	q1, q2, [sp, #576]
	str	q0, [sp, #736]
	stp	q3, q0, [sp, #624]
	ldp	q2, q0, [sp, #576]
	str	q1, [sp, #672]
	ldr	q1, [sp, #800]
	str	q1, [sp, #608]
	stp	q2, q0, [sp, #384]
	ldp	q1, q0, [sp, #624]
	ldr	q2, [sp, #608]
	stp	q1, q0, [sp, #432]
	str	q2, [sp, #416]
	b	.LBB2_1195
.LBB2_1248:
	mov	x26, xzr
.LBB2_1249:
	mov	w25, #1
.LBB2_1250:
	cmp	w25, #1
	cset	w8, eq
	ldur	x9, [x21, #8]
	cbnz	x9, .LBB2_1210
	b	.LBB2_1211
.Lfunc_end2:
	.size	"unftp_control_serve::engine::answer_lines::<#2e66f6333061c70c>", .Lfunc_end2-"unftp_control_serve::engine::answer_lines::<#2e66f6333061c70c>"
	.section	".rodata.unftp_control_serve::engine::answer_lines::<#2e66f6333061c70c>","a",@progbits
	.p2align	2, 0x0
.LJTI2_0:
	.word	.LBB2_528-.Ltmp4
	.word	.LBB2_528-.Ltmp4
	.word	.LBB2_528-.Ltmp4
	.word	.LBB2_178-.Ltmp4
	.word	.LBB2_528-.Ltmp4
	.word	.LBB2_178-.Ltmp4
	.word	.LBB2_141-.Ltmp4
	.word	.LBB2_141-.Ltmp4
	.word	.LBB2_178-.Ltmp4
	.word	.LBB2_102-.Ltmp4
	.word	.LBB2_102-.Ltmp4
	.word	.LBB2_178-.Ltmp4
	.word	.LBB2_91-.Ltmp4
	.word	.LBB2_91-.Ltmp4
	.word	.LBB2_91-.Ltmp4
	.word	.LBB2_91-.Ltmp4
	.word	.LBB2_527-.Ltmp4
	.word	.LBB2_197-.Ltmp4
	.word	.LBB2_197-.Ltmp4
	.word	.LBB2_197-.Ltmp4
	.word	.LBB2_102-.Ltmp4
	.word	.LBB2_102-.Ltmp4
	.word	.LBB2_91-.Ltmp4
	.word	.LBB2_102-.Ltmp4
	.word	.LBB2_141-.Ltmp4
	.word	.LBB2_91-.Ltmp4
	.word	.LBB2_91-.Ltmp4
	.word	.LBB2_102-.Ltmp4
	.word	.LBB2_91-.Ltmp4
	.word	.LBB2_178-.Ltmp4
	.word	.LBB2_102-.Ltmp4
	.word	.LBB2_102-.Ltmp4
	.word	.LBB2_91-.Ltmp4
	.word	.LBB2_91-.Ltmp4
	.word	.LBB2_141-.Ltmp4
	.word	.LBB2_102-.Ltmp4
	.word	.LBB2_141-.Ltmp4
	.word	.LBB2_141-.Ltmp4
	.word	.LBB2_91-.Ltmp4
	.word	.LBB2_141-.Ltmp4
	.word	.LBB2_91-.Ltmp4
	.word	.LBB2_91-.Ltmp4
	.word	.LBB2_523-.Ltmp4
	.p2align	2, 0x0
.LJTI2_1:
	.word	.LBB2_763-.Ltmp6
	.word	.LBB2_763-.Ltmp6
	.word	.LBB2_763-.Ltmp6
	.word	.LBB2_761-.Ltmp6
	.word	.LBB2_804-.Ltmp6
	.word	.LBB2_761-.Ltmp6
	.word	.LBB2_875-.Ltmp6
	.word	.LBB2_848-.Ltmp6
	.word	.LBB2_761-.Ltmp6
	.word	.LBB2_761-.Ltmp6
	.word	.LBB2_761-.Ltmp6
	.word	.LBB2_761-.Ltmp6
	.word	.LBB2_816-.Ltmp6
	.word	.LBB2_865-.Ltmp6
	.word	.LBB2_784-.Ltmp6
	.word	.LBB2_838-.Ltmp6
	.word	.LBB2_782-.Ltmp6
	.word	.LBB2_851-.Ltmp6
	.word	.LBB2_879-.Ltmp6
	.word	.LBB2_903-.Ltmp6
	.word	.LBB2_863-.Ltmp6
	.word	.LBB2_864-.Ltmp6
	.word	.LBB2_892-.Ltmp6
	.word	.LBB2_907-.Ltmp6
	.word	.LBB2_836-.Ltmp6
	.word	.LBB2_826-.Ltmp6
	.word	.LBB2_933-.Ltmp6
	.word	.LBB2_779-.Ltmp6
	.word	.LBB2_908-.Ltmp6
	.word	.LBB2_918-.Ltmp6
	.word	.LBB2_881-.Ltmp6
	.word	.LBB2_850-.Ltmp6
	.word	.LBB2_882-.Ltmp6
	.word	.LBB2_794-.Ltmp6
	.word	.LBB2_780-.Ltmp6
	.word	.LBB2_777-.Ltmp6
	.word	.LBB2_778-.Ltmp6
	.word	.LBB2_776-.Ltmp6
	.word	.LBB2_923-.Ltmp6
	.word	.LBB2_902-.Ltmp6
	.word	.LBB2_806-.Ltmp6
	.word	.LBB2_853-.Ltmp6
	.word	.LBB2_905-.Ltmp6
	.word	.LBB2_767-.Ltmp6
	.p2align	2, 0x0
.LJTI2_2:
	.word	.LBB2_542-.Ltmp5
	.word	.LBB2_97-.Ltmp5
	.word	.LBB2_532-.Ltmp5
	.word	.LBB2_533-.Ltmp5
	.word	.LBB2_530-.Ltmp5
	.word	.LBB2_535-.Ltmp5
	.word	.LBB2_536-.Ltmp5
	.word	.LBB2_534-.Ltmp5
	.word	.LBB2_541-.Ltmp5
	.word	.LBB2_531-.Ltmp5
	.word	.LBB2_539-.Ltmp5
	.word	.LBB2_529-.Ltmp5
	.p2align	2, 0x0
.LJTI2_3:
	.word	.LBB2_33-.Ltmp0
	.word	.LBB2_33-.Ltmp0
	.word	.LBB2_33-.Ltmp0
	.word	.LBB2_33-.Ltmp0
	.word	.LBB2_33-.Ltmp0
	.word	.LBB2_33-.Ltmp0
	.word	.LBB2_130-.Ltmp0
	.word	.LBB2_126-.Ltmp0
	.word	.LBB2_118-.Ltmp0
	.word	.LBB2_110-.Ltmp0
	.word	.LBB2_33-.Ltmp0
	.word	.LBB2_606-.Ltmp0
	.word	.LBB2_33-.Ltmp0
	.word	.LBB2_33-.Ltmp0
	.word	.LBB2_33-.Ltmp0
	.word	.LBB2_33-.Ltmp0
	.word	.LBB2_33-.Ltmp0
	.word	.LBB2_33-.Ltmp0
	.word	.LBB2_607-.Ltmp0
	.word	.LBB2_33-.Ltmp0
	.word	.LBB2_103-.Ltmp0
	.word	.LBB2_33-.Ltmp0
	.word	.LBB2_33-.Ltmp0
	.word	.LBB2_33-.Ltmp0
	.word	.LBB2_122-.Ltmp0
	.word	.LBB2_33-.Ltmp0
	.word	.LBB2_33-.Ltmp0
	.word	.LBB2_107-.Ltmp0
	.word	.LBB2_33-.Ltmp0
	.word	.LBB2_33-.Ltmp0
	.word	.LBB2_33-.Ltmp0
	.word	.LBB2_33-.Ltmp0
	.word	.LBB2_33-.Ltmp0
	.word	.LBB2_33-.Ltmp0
	.word	.LBB2_86-.Ltmp0
	.word	.LBB2_33-.Ltmp0
	.word	.LBB2_33-.Ltmp0
	.word	.LBB2_86-.Ltmp0
	.word	.LBB2_33-.Ltmp0
	.word	.LBB2_33-.Ltmp0
	.word	.LBB2_33-.Ltmp0
	.word	.LBB2_33-.Ltmp0
	.word	.LBB2_113-.Ltmp0
	.word	.LBB2_33-.Ltmp0
	.p2align	2, 0x0
.LJTI2_4:
	.word	.LBB2_164-.Ltmp1
	.word	.LBB2_154-.Ltmp1
	.word	.LBB2_146-.Ltmp1
	.word	.LBB2_48-.Ltmp1
	.word	.LBB2_158-.Ltmp1
	.word	.LBB2_48-.Ltmp1
	.word	.LBB2_48-.Ltmp1
	.word	.LBB2_48-.Ltmp1
	.word	.LBB2_48-.Ltmp1
	.word	.LBB2_48-.Ltmp1
	.word	.LBB2_48-.Ltmp1
	.word	.LBB2_48-.Ltmp1
	.word	.LBB2_45-.Ltmp1
	.word	.LBB2_45-.Ltmp1
	.word	.LBB2_45-.Ltmp1
	.word	.LBB2_45-.Ltmp1
	.word	.LBB2_171-.Ltmp1
	.word	.LBB2_93-.Ltmp1
	.word	.LBB2_48-.Ltmp1
	.word	.LBB2_93-.Ltmp1
	.word	.LBB2_48-.Ltmp1
	.word	.LBB2_48-.Ltmp1
	.word	.LBB2_45-.Ltmp1
	.word	.LBB2_48-.Ltmp1
	.word	.LBB2_48-.Ltmp1
	.word	.LBB2_45-.Ltmp1
	.word	.LBB2_45-.Ltmp1
	.word	.LBB2_48-.Ltmp1
	.word	.LBB2_45-.Ltmp1
	.word	.LBB2_48-.Ltmp1
	.word	.LBB2_48-.Ltmp1
	.word	.LBB2_48-.Ltmp1
	.word	.LBB2_45-.Ltmp1
	.word	.LBB2_45-.Ltmp1
	.word	.LBB2_48-.Ltmp1
	.word	.LBB2_48-.Ltmp1
	.word	.LBB2_48-.Ltmp1
	.word	.LBB2_48-.Ltmp1
	.word	.LBB2_45-.Ltmp1
	.word	.LBB2_48-.Ltmp1
	.word	.LBB2_45-.Ltmp1
	.word	.LBB2_45-.Ltmp1
	.word	.LBB2_48-.Ltmp1
	.word	.LBB2_150-.Ltmp1
	.p2align	2, 0x0
.LJTI2_5:
	.word	.LBB2_290-.Ltmp2
	.word	.LBB2_58-.Ltmp2
	.word	.LBB2_235-.Ltmp2
	.word	.LBB2_237-.Ltmp2
	.word	.LBB2_229-.Ltmp2
	.word	.LBB2_246-.Ltmp2
	.word	.LBB2_250-.Ltmp2
	.word	.LBB2_239-.Ltmp2
	.word	.LBB2_255-.Ltmp2
	.word	.LBB2_232-.Ltmp2
	.word	.LBB2_254-.Ltmp2
	.word	.LBB2_225-.Ltmp2
	.word	.LBB2_231-.Ltmp2
	.word	.LBB2_249-.Ltmp2
	.word	.LBB2_222-.Ltmp2
	.word	.LBB2_236-.Ltmp2
	.word	.LBB2_218-.Ltmp2
	.word	.LBB2_241-.Ltmp2
	.word	.LBB2_252-.Ltmp2
	.word	.LBB2_279-.Ltmp2
	.word	.LBB2_245-.Ltmp2
	.word	.LBB2_248-.Ltmp2
	.word	.LBB2_272-.Ltmp2
	.word	.LBB2_281-.Ltmp2
	.word	.LBB2_234-.Ltmp2
	.word	.LBB2_233-.Ltmp2
	.word	.LBB2_289-.Ltmp2
	.word	.LBB2_215-.Ltmp2
	.word	.LBB2_282-.Ltmp2
	.word	.LBB2_283-.Ltmp2
	.word	.LBB2_258-.Ltmp2
	.word	.LBB2_240-.Ltmp2
	.word	.LBB2_259-.Ltmp2
	.word	.LBB2_223-.Ltmp2
	.word	.LBB2_216-.Ltmp2
	.word	.LBB2_211-.Ltmp2
	.word	.LBB2_212-.Ltmp2
	.word	.LBB2_209-.Ltmp2
	.word	.LBB2_286-.Ltmp2
	.word	.LBB2_278-.Ltmp2
	.word	.LBB2_230-.Ltmp2
	.word	.LBB2_244-.Ltmp2
	.word	.LBB2_280-.Ltmp2
	.word	.LBB2_207-.Ltmp2
	.word	.LBB2_219-.Ltmp2
	.word	.LBB2_265-.Ltmp2
	.word	.LBB2_394-.Ltmp2
	.p2align	2, 0x0
.LJTI2_6:
	.word	.LBB2_60-.Ltmp3
	.word	.LBB2_257-.Ltmp3
	.word	.LBB2_261-.Ltmp3
	.word	.LBB2_397-.Ltmp3
	.word	.LBB2_242-.Ltmp3
	.word	.LBB2_268-.Ltmp3
	.word	.LBB2_271-.Ltmp3
	.word	.LBB2_262-.Ltmp3
	.word	.LBB2_275-.Ltmp3
	.word	.LBB2_251-.Ltmp3
	.word	.LBB2_274-.Ltmp3
	.word	.LBB2_238-.Ltmp3
	.word	.LBB2_247-.Ltmp3
	.word	.LBB2_270-.Ltmp3
	.word	.LBB2_227-.Ltmp3
	.word	.LBB2_260-.Ltmp3
	.word	.LBB2_224-.Ltmp3
	.word	.LBB2_264-.Ltmp3
	.word	.LBB2_273-.Ltmp3
	.word	.LBB2_288-.Ltmp3
	.word	.LBB2_267-.Ltmp3
	.word	.LBB2_269-.Ltmp3
	.word	.LBB2_285-.Ltmp3
	.word	.LBB2_389-.Ltmp3
	.word	.LBB2_256-.Ltmp3
	.word	.LBB2_253-.Ltmp3
	.word	.LBB2_393-.Ltmp3
	.word	.LBB2_220-.Ltmp3
	.word	.LBB2_390-.Ltmp3
	.word	.LBB2_391-.Ltmp3
	.word	.LBB2_276-.Ltmp3
	.word	.LBB2_263-.Ltmp3
	.word	.LBB2_277-.Ltmp3
	.word	.LBB2_228-.Ltmp3
	.word	.LBB2_221-.Ltmp3
	.word	.LBB2_214-.Ltmp3
	.word	.LBB2_217-.Ltmp3
	.word	.LBB2_213-.Ltmp3
	.word	.LBB2_392-.Ltmp3
	.word	.LBB2_287-.Ltmp3
	.word	.LBB2_243-.Ltmp3
	.word	.LBB2_266-.Ltmp3
	.word	.LBB2_388-.Ltmp3
	.word	.LBB2_210-.Ltmp3
	.word	.LBB2_226-.Ltmp3
	.word	.LBB2_284-.Ltmp3
	.word	.LBB2_395-.Ltmp3

	.section	".text.unftp_control_codecs::line_parser::parser::any_verb_len","ax",@progbits
	.p2align	2
	.type	"unftp_control_codecs::line_parser::parser::any_verb_len",@function
"unftp_control_codecs::line_parser::parser::any_verb_len":
	stp	x29, x30, [sp, #-32]!
	mov	w8, #5
	cmp	x1, #5
	str	x19, [sp, #16]
	csel	x19, x1, x8, lo
	mov	x29, sp
	cbz	x1, .LBB3_5
	ldrb	w8, [x0]
	cmp	w8, #32
	b.hi	.LBB3_4
	mov	w9, #1
	lsl	x8, x9, x8
	mov	x9, #9216
	movk	x9, #1, lsl #32
	tst	x8, x9
	b.eq	.LBB3_4
	mov	x0, xzr
	ldr	x19, [sp, #16]
	ldp	x29, x30, [sp], #32
	ret
.LBB3_4:
	cmp	x1, #1
	b.ne	.LBB3_6
.LBB3_5:
	sub	x1, x1, x19
	add	x0, x0, x19
	bl	"unftp_control_codecs::line_parser::parser::word_len"
	add	x0, x0, x19
	ldr	x19, [sp, #16]
	ldp	x29, x30, [sp], #32
	ret
.LBB3_6:
	ldrb	w8, [x0, #1]
	cmp	w8, #32
	b.hi	.LBB3_9
	mov	w9, #1
	lsl	x8, x9, x8
	mov	x9, #9216
	movk	x9, #1, lsl #32
	tst	x8, x9
	b.eq	.LBB3_9
	mov	w0, #1
	ldr	x19, [sp, #16]
	ldp	x29, x30, [sp], #32
	ret
.LBB3_9:
	cmp	x1, #2
	b.eq	.LBB3_5
	ldrb	w8, [x0, #2]
	cmp	w8, #32
	b.hi	.LBB3_13
	mov	w9, #1
	lsl	x8, x9, x8
	mov	x9, #9216
	movk	x9, #1, lsl #32
	tst	x8, x9
	b.eq	.LBB3_13
	mov	w0, #2
	ldr	x19, [sp, #16]
	ldp	x29, x30, [sp], #32
	ret
.LBB3_13:
	cmp	x1, #3
	b.eq	.LBB3_5
	ldrb	w8, [x0, #3]
	cmp	w8, #32
	b.hi	.LBB3_17
	mov	w9, #1
	lsl	x8, x9, x8
	mov	x9, #9216
	movk	x9, #1, lsl #32
	tst	x8, x9
	b.eq	.LBB3_17
	mov	w0, #3
	ldr	x19, [sp, #16]
	ldp	x29, x30, [sp], #32
	ret
.LBB3_17:
	cmp	x1, #4
	b.eq	.LBB3_5
	ldrb	w8, [x0, #4]
	cmp	w8, #32
	b.hi	.LBB3_5
	mov	w9, #1
	lsl	x8, x9, x8
	mov	x9, #9216
	movk	x9, #1, lsl #32
	tst	x8, x9
	b.eq	.LBB3_5
	mov	w0, #4
	ldr	x19, [sp, #16]
	ldp	x29, x30, [sp], #32
	ret
.Lfunc_end3:
	.size	"unftp_control_codecs::line_parser::parser::any_verb_len", .Lfunc_end3-"unftp_control_codecs::line_parser::parser::any_verb_len"

	.section	.rodata.cst16,"aM",@progbits,16
	.p2align	4, 0x0
.LCPI4_0:
	.byte	1
	.byte	2
	.byte	4
	.byte	8
	.byte	16
	.byte	32
	.byte	64
	.byte	128
	.byte	1
	.byte	2
	.byte	4
	.byte	8
	.byte	16
	.byte	32
	.byte	64
	.byte	128
	.section	".text.unftp_control_codecs::line_parser::parser::word_len","ax",@progbits
	.p2align	2
	.type	"unftp_control_codecs::line_parser::parser::word_len",@function
"unftp_control_codecs::line_parser::parser::word_len":
	cmp	x1, #32
	b.hs	.LBB4_6
	cbz	x1, .LBB4_5
	mov	x8, xzr
.LBB4_3:
	ldrb	w9, [x0, x8]
	mov	w10, #1
	mov	x11, #9216
	movk	x11, #1, lsl #32
	lsl	x10, x10, x9
	cmp	w9, #32
	and	x9, x10, x11
	ccmp	x9, #0, #4, ls
	b.ne	.LBB4_44
	add	x8, x8, #1
	cmp	x1, x8
	b.ne	.LBB4_3
.LBB4_5:
	mov	x0, x1
	ret
.LBB4_6:
	mov	x13, xzr
	add	x8, x0, x1
	sub	x9, x1, #64
	add	x10, x0, #96
	add	x11, x0, #160
.LBB4_7:
	sub	x14, x1, x13
	adrp	x12, .LCPI4_0
	cmp	x14, #191
	b.ls	.LBB4_14
	movi	v0.16b, #32
	add	x14, x0, x13
	movi	v1.16b, #13
	ldp	q2, q3, [x14]
	movi	v6.16b, #10
	ldp	q4, q5, [x14, #32]
	add	x14, x13, #64
	cmeq	v7.16b, v3.16b, v0.16b
	cmeq	v16.16b, v2.16b, v0.16b
	cmeq	v17.16b, v3.16b, v1.16b
	cmeq	v18.16b, v2.16b, v1.16b
	cmeq	v19.16b, v5.16b, v0.16b
	cmeq	v0.16b, v4.16b, v0.16b
	cmeq	v20.16b, v5.16b, v1.16b
	cmeq	v1.16b, v4.16b, v1.16b
	cmeq	v2.16b, v2.16b, v6.16b
	orr	v7.16b, v7.16b, v17.16b
	cmeq	v3.16b, v3.16b, v6.16b
	cmeq	v4.16b, v4.16b, v6.16b
	orr	v16.16b, v16.16b, v18.16b
	cmeq	v5.16b, v5.16b, v6.16b
	orr	v1.16b, v0.16b, v1.16b
	orr	v17.16b, v19.16b, v20.16b
	ldr	q0, [x12, :lo12:.LCPI4_0]
	orr	v3.16b, v3.16b, v7.16b
	orr	v2.16b, v2.16b, v16.16b
	orr	v5.16b, v5.16b, v17.16b
	orr	v1.16b, v4.16b, v1.16b
	and	v3.16b, v3.16b, v0.16b
	and	v2.16b, v2.16b, v0.16b
	and	v1.16b, v1.16b, v0.16b
	and	v4.16b, v5.16b, v0.16b
	addp	v2.16b, v2.16b, v3.16b
	addp	v1.16b, v1.16b, v4.16b
	addp	v1.16b, v2.16b, v1.16b
	addp	v1.16b, v1.16b, v1.16b
	fmov	x15, d1
	cbnz	x15, .LBB4_36
	sub	x15, x1, x14
	cmp	x15, #128
	b.lo	.LBB4_23
	add	x12, x13, #192
	add	x13, x11, x13
.LBB4_11:
	movi	v1.16b, #32
	movi	v2.16b, #13
	movi	v5.16b, #10
	ldp	q6, q3, [x13, #-64]
	ldp	q4, q7, [x13, #-32]
	ldp	q16, q17, [x13]
	cmeq	v18.16b, v6.16b, v1.16b
	cmeq	v19.16b, v6.16b, v2.16b
	cmeq	v20.16b, v4.16b, v1.16b
	cmeq	v21.16b, v4.16b, v2.16b
	cmeq	v22.16b, v7.16b, v1.16b
	cmeq	v23.16b, v7.16b, v2.16b
	cmeq	v24.16b, v17.16b, v1.16b
	cmeq	v25.16b, v16.16b, v1.16b
	cmeq	v26.16b, v17.16b, v2.16b
	cmeq	v27.16b, v16.16b, v2.16b
	orr	v18.16b, v18.16b, v19.16b
	orr	v19.16b, v20.16b, v21.16b
	ldp	q20, q21, [x13, #-96]
	orr	v22.16b, v22.16b, v23.16b
	cmeq	v23.16b, v3.16b, v1.16b
	cmeq	v28.16b, v4.16b, v5.16b
	orr	v25.16b, v25.16b, v27.16b
	cmeq	v27.16b, v3.16b, v2.16b
	orr	v24.16b, v24.16b, v26.16b
	cmeq	v26.16b, v21.16b, v1.16b
	cmeq	v4.16b, v7.16b, v5.16b
	cmeq	v7.16b, v20.16b, v1.16b
	cmeq	v1.16b, v16.16b, v5.16b
	cmeq	v16.16b, v17.16b, v5.16b
	orr	v17.16b, v23.16b, v27.16b
	cmeq	v23.16b, v21.16b, v2.16b
	cmeq	v27.16b, v20.16b, v2.16b
	orr	v4.16b, v4.16b, v22.16b
	orr	v2.16b, v28.16b, v19.16b
	cmeq	v19.16b, v3.16b, v5.16b
	orr	v3.16b, v16.16b, v24.16b
	orr	v1.16b, v1.16b, v25.16b
	cmeq	v16.16b, v6.16b, v5.16b
	orr	v7.16b, v7.16b, v27.16b
	orr	v22.16b, v26.16b, v23.16b
	cmeq	v20.16b, v20.16b, v5.16b
	cmeq	v21.16b, v21.16b, v5.16b
	orr	v6.16b, v19.16b, v17.16b
	orr	v5.16b, v16.16b, v18.16b
	orr	v17.16b, v4.16b, v3.16b
	orr	v18.16b, v2.16b, v1.16b
	orr	v7.16b, v20.16b, v7.16b
	orr	v16.16b, v21.16b, v22.16b
	orr	v18.16b, v5.16b, v18.16b
	orr	v17.16b, v6.16b, v17.16b
	orr	v17.16b, v16.16b, v17.16b
	orr	v18.16b, v7.16b, v18.16b
	and	v18.16b, v18.16b, v0.16b
	and	v17.16b, v17.16b, v0.16b
	addp	v17.16b, v18.16b, v17.16b
	addp	v17.16b, v17.16b, v17.16b
	addp	v17.16b, v17.16b, v17.16b
	fmov	w14, s17
	cbnz	w14, .LBB4_39
	sub	x15, x15, #128
	add	x12, x12, #128
	add	x13, x13, #128
	cmp	x15, #127
	b.hi	.LBB4_11
	sub	x13, x12, #128
	cmp	x15, #32
	b.hs	.LBB4_24
	b	.LBB4_27
.LBB4_14:
	cmp	x14, #64
	b.lo	.LBB4_29
.LBB4_15:
	movi	v0.16b, #32
	add	x15, x0, x13
	movi	v5.16b, #13
	ldp	q1, q2, [x15]
	movi	v6.16b, #10
	ldp	q4, q3, [x15, #32]
	cmeq	v7.16b, v1.16b, v0.16b
	cmeq	v16.16b, v2.16b, v0.16b
	cmeq	v17.16b, v1.16b, v5.16b
	cmeq	v18.16b, v2.16b, v5.16b
	cmeq	v19.16b, v3.16b, v0.16b
	cmeq	v20.16b, v3.16b, v5.16b
	cmeq	v0.16b, v4.16b, v0.16b
	cmeq	v5.16b, v4.16b, v5.16b
	orr	v7.16b, v7.16b, v17.16b
	cmeq	v17.16b, v2.16b, v6.16b
	orr	v16.16b, v16.16b, v18.16b
	orr	v18.16b, v19.16b, v20.16b
	cmeq	v19.16b, v1.16b, v6.16b
	orr	v0.16b, v0.16b, v5.16b
	cmeq	v5.16b, v3.16b, v6.16b
	cmeq	v6.16b, v4.16b, v6.16b
	orr	v7.16b, v19.16b, v7.16b
	orr	v16.16b, v17.16b, v16.16b
	orr	v0.16b, v6.16b, v0.16b
	orr	v5.16b, v5.16b, v18.16b
	orr	v5.16b, v16.16b, v5.16b
	orr	v6.16b, v7.16b, v0.16b
	ldr	q0, [x12, :lo12:.LCPI4_0]
	and	v6.16b, v6.16b, v0.16b
	and	v5.16b, v5.16b, v0.16b
	addp	v5.16b, v6.16b, v5.16b
	addp	v5.16b, v5.16b, v5.16b
	addp	v5.16b, v5.16b, v5.16b
	fmov	w15, s5
	cbnz	w15, .LBB4_17
	sub	x14, x14, #64
	add	x13, x13, #64
	cmp	x14, #63
	b.hi	.LBB4_15
	b	.LBB4_29
.LBB4_17:
	cmp	x14, #64
	b.lo	.LBB4_29
.LBB4_18:
	movi	v5.16b, #32
	movi	v6.16b, #13
	movi	v7.16b, #10
	cmeq	v16.16b, v2.16b, v5.16b
	cmeq	v17.16b, v1.16b, v5.16b
	cmeq	v18.16b, v2.16b, v6.16b
	cmeq	v19.16b, v1.16b, v6.16b
	cmeq	v20.16b, v4.16b, v5.16b
	cmeq	v21.16b, v4.16b, v6.16b
	cmeq	v5.16b, v3.16b, v5.16b
	cmeq	v6.16b, v3.16b, v6.16b
	cmeq	v1.16b, v1.16b, v7.16b
	orr	v16.16b, v16.16b, v18.16b
	cmeq	v2.16b, v2.16b, v7.16b
	cmeq	v4.16b, v4.16b, v7.16b
	orr	v17.16b, v17.16b, v19.16b
	orr	v18.16b, v20.16b, v21.16b
	cmeq	v3.16b, v3.16b, v7.16b
	orr	v5.16b, v5.16b, v6.16b
	orr	v2.16b, v2.16b, v16.16b
	orr	v1.16b, v1.16b, v17.16b
	orr	v4.16b, v4.16b, v18.16b
	orr	v3.16b, v3.16b, v5.16b
	and	v2.16b, v2.16b, v0.16b
	and	v1.16b, v1.16b, v0.16b
	and	v4.16b, v4.16b, v0.16b
	and	v3.16b, v3.16b, v0.16b
	addp	v1.16b, v1.16b, v2.16b
	addp	v2.16b, v4.16b, v3.16b
	addp	v1.16b, v1.16b, v2.16b
	addp	v1.16b, v1.16b, v1.16b
	fmov	x15, d1
	cbnz	x15, .LBB4_42
	sub	x14, x9, x13
	neg	x15, x13
	add	x13, x10, x13
.LBB4_20:
	subs	x16, x14, #64
	b.lo	.LBB4_28
	movi	v5.16b, #32
	movi	v6.16b, #13
	sub	x15, x15, #64
	ldp	q1, q2, [x13, #-32]
	movi	v7.16b, #10
	ldp	q4, q3, [x13], #64
	mov	x14, x16
	cmeq	v16.16b, v1.16b, v5.16b
	cmeq	v17.16b, v2.16b, v5.16b
	cmeq	v18.16b, v1.16b, v6.16b
	cmeq	v19.16b, v2.16b, v6.16b
	cmeq	v20.16b, v3.16b, v5.16b
	cmeq	v21.16b, v3.16b, v6.16b
	cmeq	v5.16b, v4.16b, v5.16b
	cmeq	v6.16b, v4.16b, v6.16b
	orr	v16.16b, v16.16b, v18.16b
	cmeq	v18.16b, v2.16b, v7.16b
	orr	v17.16b, v17.16b, v19.16b
	orr	v19.16b, v20.16b, v21.16b
	cmeq	v20.16b, v1.16b, v7.16b
	orr	v5.16b, v5.16b, v6.16b
	cmeq	v6.16b, v3.16b, v7.16b
	cmeq	v7.16b, v4.16b, v7.16b
	orr	v16.16b, v20.16b, v16.16b
	orr	v17.16b, v18.16b, v17.16b
	orr	v5.16b, v7.16b, v5.16b
	orr	v6.16b, v6.16b, v19.16b
	orr	v6.16b, v17.16b, v6.16b
	orr	v5.16b, v16.16b, v5.16b
	and	v5.16b, v5.16b, v0.16b
	and	v6.16b, v6.16b, v0.16b
	addp	v5.16b, v5.16b, v6.16b
	addp	v5.16b, v5.16b, v5.16b
	addp	v5.16b, v5.16b, v5.16b
	fmov	w17, s5
	cbz	w17, .LBB4_20
	neg	x13, x15
	b	.LBB4_18
.LBB4_23:
	mov	x13, x14
	cmp	x15, #32
	b.lo	.LBB4_27
.LBB4_24:
	sub	x12, x1, x13
.LBB4_25:
	movi	v1.16b, #32
	movi	v2.16b, #13
	add	x14, x0, x13
	ldp	q3, q4, [x14]
	movi	v5.16b, #10
	cmeq	v6.16b, v3.16b, v1.16b
	cmeq	v7.16b, v3.16b, v2.16b
	cmeq	v1.16b, v4.16b, v1.16b
	cmeq	v2.16b, v4.16b, v2.16b
	orr	v6.16b, v6.16b, v7.16b
	orr	v1.16b, v1.16b, v2.16b
	cmeq	v2.16b, v3.16b, v5.16b
	cmeq	v3.16b, v4.16b, v5.16b
	orr	v1.16b, v3.16b, v1.16b
	orr	v2.16b, v2.16b, v6.16b
	and	v2.16b, v2.16b, v0.16b
	and	v1.16b, v1.16b, v0.16b
	addp	v1.16b, v2.16b, v1.16b
	addp	v1.16b, v1.16b, v1.16b
	addp	v1.16b, v1.16b, v1.16b
	fmov	w15, s1
	cbnz	w15, .LBB4_35
	sub	x12, x12, #32
	add	x13, x13, #32
	cmp	x12, #31
	b.hi	.LBB4_25
.LBB4_27:
	movi	v1.16b, #32
	movi	v2.16b, #13
	movi	v5.16b, #10
	ldp	q3, q4, [x8, #-32]
	cmeq	v6.16b, v3.16b, v1.16b
	cmeq	v7.16b, v3.16b, v2.16b
	cmeq	v1.16b, v4.16b, v1.16b
	cmeq	v2.16b, v4.16b, v2.16b
	orr	v6.16b, v6.16b, v7.16b
	orr	v1.16b, v1.16b, v2.16b
	cmeq	v2.16b, v3.16b, v5.16b
	cmeq	v3.16b, v4.16b, v5.16b
	orr	v1.16b, v3.16b, v1.16b
	orr	v2.16b, v2.16b, v6.16b
	and	v2.16b, v2.16b, v0.16b
	and	v0.16b, v1.16b, v0.16b
	addp	v0.16b, v2.16b, v0.16b
	b	.LBB4_34
.LBB4_28:
	mov	w13, #64
	sub	x13, x13, x15
.LBB4_29:
	cmp	x14, #32
	b.lo	.LBB4_33
	sub	x14, x1, x13
.LBB4_31:
	movi	v0.16b, #32
	movi	v1.16b, #13
	add	x15, x0, x13
	ldp	q2, q3, [x15]
	movi	v4.16b, #10
	cmeq	v5.16b, v2.16b, v0.16b
	cmeq	v6.16b, v2.16b, v1.16b
	cmeq	v0.16b, v3.16b, v0.16b
	cmeq	v1.16b, v3.16b, v1.16b
	orr	v5.16b, v5.16b, v6.16b
	orr	v0.16b, v0.16b, v1.16b
	cmeq	v1.16b, v2.16b, v4.16b
	cmeq	v2.16b, v3.16b, v4.16b
	orr	v0.16b, v2.16b, v0.16b
	orr	v1.16b, v1.16b, v5.16b
	ldr	q2, [x12, :lo12:.LCPI4_0]
	and	v1.16b, v1.16b, v2.16b
	and	v0.16b, v0.16b, v2.16b
	addp	v0.16b, v1.16b, v0.16b
	addp	v0.16b, v0.16b, v0.16b
	addp	v0.16b, v0.16b, v0.16b
	fmov	w15, s0
	cbnz	w15, .LBB4_35
	sub	x14, x14, #32
	add	x13, x13, #32
	cmp	x14, #31
	b.hi	.LBB4_31
.LBB4_33:
	movi	v0.16b, #32
	movi	v1.16b, #13
	movi	v4.16b, #10
	ldp	q2, q3, [x8, #-32]
	cmeq	v5.16b, v2.16b, v0.16b
	cmeq	v6.16b, v2.16b, v1.16b
	cmeq	v0.16b, v3.16b, v0.16b
	cmeq	v1.16b, v3.16b, v1.16b
	orr	v5.16b, v5.16b, v6.16b
	orr	v0.16b, v0.16b, v1.16b
	cmeq	v1.16b, v2.16b, v4.16b
	cmeq	v2.16b, v3.16b, v4.16b
	orr	v0.16b, v2.16b, v0.16b
	orr	v1.16b, v1.16b, v5.16b
	ldr	q2, [x12, :lo12:.LCPI4_0]
	and	v1.16b, v1.16b, v2.16b
	and	v0.16b, v0.16b, v2.16b
	addp	v0.16b, v1.16b, v0.16b
.LBB4_34:
	addp	v0.16b, v0.16b, v0.16b
	sub	x14, x13, x1
	add	x14, x14, #32
	addp	v0.16b, v0.16b, v0.16b
	fmov	w12, s0
	lsr	x15, x12, x14
	mov	x12, x1
	mov	x14, x12
	cbnz	x15, .LBB4_36
	b	.LBB4_38
.LBB4_35:
	add	x14, x13, #32
.LBB4_36:
	rbit	x12, x15
	mov	w18, #1
	mov	x2, #9216
	movk	x2, #1, lsl #32
	clz	x12, x12
	add	x16, x12, x13
	ldrb	w17, [x0, x16]
	lsl	x18, x18, x17
	cmp	w17, #32
	and	x17, x18, x2
	ccmp	x17, #0, #4, ls
	b.ne	.LBB4_43
	mov	w16, #1
	lsl	x12, x16, x12
	bics	x15, x15, x12
	b.ne	.LBB4_36
.LBB4_38:
	cmp	x14, x1
	mov	x13, x14
	b.lo	.LBB4_7
	b	.LBB4_5
.LBB4_39:
	umov	w14, v16.b[0]
	umov	w2, v7.b[0]
	umov	w17, v6.b[0]
	umov	w15, v5.b[0]
	umov	w18, v16.b[1]
	umov	w16, v7.b[1]
	umov	w13, v6.b[1]
	fmov	s17, w14
	umov	w14, v5.b[1]
	fmov	s18, w2
	fmov	s19, w17
	fmov	s20, w15
	umov	w15, v16.b[3]
	mov	v17.b[1], w18
	umov	w18, v16.b[2]
	mov	v18.b[1], w16
	umov	w16, v7.b[2]
	mov	v19.b[1], w13
	umov	w13, v6.b[2]
	mov	v20.b[1], w14
	umov	w14, v5.b[2]
	mov	v17.b[2], w18
	mov	v18.b[2], w16
	umov	w16, v7.b[3]
	mov	v19.b[2], w13
	umov	w13, v6.b[3]
	mov	v20.b[2], w14
	umov	w14, v5.b[3]
	mov	v17.b[3], w15
	umov	w15, v16.b[4]
	mov	v18.b[3], w16
	umov	w16, v7.b[4]
	mov	v19.b[3], w13
	umov	w13, v6.b[4]
	mov	v20.b[3], w14
	umov	w14, v5.b[4]
	mov	v17.b[4], w15
	umov	w15, v16.b[5]
	mov	v18.b[4], w16
	umov	w16, v7.b[5]
	mov	v19.b[4], w13
	umov	w13, v6.b[5]
	mov	v20.b[4], w14
	umov	w14, v5.b[5]
	mov	v17.b[5], w15
	umov	w15, v16.b[6]
	mov	v18.b[5], w16
	umov	w16, v7.b[6]
	mov	v19.b[5], w13
	umov	w13, v6.b[6]
	mov	v20.b[5], w14
	umov	w14, v5.b[6]
	mov	v17.b[6], w15
	umov	w15, v16.b[7]
	mov	v18.b[6], w16
	umov	w16, v7.b[7]
	mov	v19.b[6], w13
	umov	w13, v6.b[7]
	mov	v20.b[6], w14
	umov	w14, v5.b[7]
	mov	v17.b[7], w15
	umov	w15, v16.b[8]
	mov	v18.b[7], w16
	umov	w16, v7.b[8]
	mov	v19.b[7], w13
	umov	w13, v6.b[8]
	mov	v20.b[7], w14
	umov	w14, v5.b[8]
	mov	v17.b[8], w15
	umov	w15, v16.b[9]
	mov	v18.b[8], w16
	umov	w16, v7.b[9]
	mov	v19.b[8], w13
	umov	w13, v6.b[9]
	mov	v20.b[8], w14
	umov	w14, v5.b[9]
	mov	v17.b[9], w15
	umov	w15, v16.b[10]
	mov	v18.b[9], w16
	umov	w16, v7.b[10]
	mov	v19.b[9], w13
	umov	w13, v6.b[10]
	mov	v20.b[9], w14
	umov	w14, v5.b[10]
	mov	v17.b[10], w15
	umov	w15, v16.b[11]
	mov	v18.b[10], w16
	umov	w16, v7.b[11]
	mov	v19.b[10], w13
	umov	w13, v6.b[11]
	mov	v20.b[10], w14
	umov	w14, v5.b[11]
	mov	v17.b[11], w15
	umov	w15, v16.b[12]
	mov	v18.b[11], w16
	umov	w16, v7.b[12]
	mov	v19.b[11], w13
	umov	w13, v6.b[12]
	mov	v20.b[11], w14
	umov	w14, v5.b[12]
	mov	v17.b[12], w15
	umov	w15, v16.b[13]
	mov	v18.b[12], w16
	umov	w16, v7.b[13]
	mov	v19.b[12], w13
	umov	w13, v6.b[13]
	mov	v20.b[12], w14
	umov	w14, v5.b[13]
	mov	v17.b[13], w15
	umov	w15, v16.b[14]
	mov	v18.b[13], w16
	umov	w16, v7.b[14]
	mov	v19.b[13], w13
	umov	w13, v6.b[14]
	mov	v20.b[13], w14
	umov	w14, v5.b[14]
	mov	v17.b[14], w15
	umov	w15, v16.b[15]
	mov	v18.b[14], w16
	umov	w16, v7.b[15]
	mov	v19.b[14], w13
	umov	w13, v6.b[15]
	mov	v20.b[14], w14
	umov	w14, v5.b[15]
	mov	v17.b[15], w15
	mov	v18.b[15], w16
	mov	v19.b[15], w13
	mov	v20.b[15], w14
	sub	x14, x12, #64
	shl	v6.16b, v17.16b, #7
	shl	v5.16b, v18.16b, #7
	shl	v7.16b, v19.16b, #7
	shl	v16.16b, v20.16b, #7
	cmlt	v6.16b, v6.16b, #0
	cmlt	v5.16b, v5.16b, #0
	cmlt	v7.16b, v7.16b, #0
	cmlt	v16.16b, v16.16b, #0
	and	v6.16b, v6.16b, v0.16b
	and	v5.16b, v5.16b, v0.16b
	and	v7.16b, v7.16b, v0.16b
	and	v16.16b, v16.16b, v0.16b
	addp	v5.16b, v5.16b, v6.16b
	addp	v6.16b, v16.16b, v7.16b
	addp	v5.16b, v5.16b, v6.16b
	addp	v5.16b, v5.16b, v5.16b
	fmov	x15, d5
	cbz	x15, .LBB4_41
	sub	x13, x12, #128
	b	.LBB4_36
.LBB4_41:
	umov	w15, v4.b[0]
	umov	w3, v2.b[0]
	umov	w18, v3.b[0]
	umov	w16, v1.b[0]
	umov	w2, v4.b[1]
	umov	w17, v2.b[1]
	umov	w13, v3.b[1]
	fmov	s5, w15
	umov	w15, v1.b[1]
	fmov	s6, w3
	fmov	s7, w18
	fmov	s16, w16
	umov	w16, v4.b[3]
	mov	v5.b[1], w2
	umov	w2, v4.b[2]
	mov	v6.b[1], w17
	umov	w17, v2.b[2]
	mov	v7.b[1], w13
	umov	w13, v3.b[2]
	mov	v16.b[1], w15
	umov	w15, v1.b[2]
	mov	v5.b[2], w2
	mov	v6.b[2], w17
	umov	w17, v2.b[3]
	mov	v7.b[2], w13
	umov	w13, v3.b[3]
	mov	v16.b[2], w15
	umov	w15, v1.b[3]
	mov	v5.b[3], w16
	umov	w16, v4.b[4]
	mov	v6.b[3], w17
	umov	w17, v2.b[4]
	mov	v7.b[3], w13
	umov	w13, v3.b[4]
	mov	v16.b[3], w15
	umov	w15, v1.b[4]
	mov	v5.b[4], w16
	umov	w16, v4.b[5]
	mov	v6.b[4], w17
	umov	w17, v2.b[5]
	mov	v7.b[4], w13
	umov	w13, v3.b[5]
	mov	v16.b[4], w15
	umov	w15, v1.b[5]
	mov	v5.b[5], w16
	umov	w16, v4.b[6]
	mov	v6.b[5], w17
	umov	w17, v2.b[6]
	mov	v7.b[5], w13
	umov	w13, v3.b[6]
	mov	v16.b[5], w15
	umov	w15, v1.b[6]
	mov	v5.b[6], w16
	umov	w16, v4.b[7]
	mov	v6.b[6], w17
	umov	w17, v2.b[7]
	mov	v7.b[6], w13
	umov	w13, v3.b[7]
	mov	v16.b[6], w15
	umov	w15, v1.b[7]
	mov	v5.b[7], w16
	umov	w16, v4.b[8]
	mov	v6.b[7], w17
	umov	w17, v2.b[8]
	mov	v7.b[7], w13
	umov	w13, v3.b[8]
	mov	v16.b[7], w15
	umov	w15, v1.b[8]
	mov	v5.b[8], w16
	umov	w16, v4.b[9]
	mov	v6.b[8], w17
	umov	w17, v2.b[9]
	mov	v7.b[8], w13
	umov	w13, v3.b[9]
	mov	v16.b[8], w15
	umov	w15, v1.b[9]
	mov	v5.b[9], w16
	umov	w16, v4.b[10]
	mov	v6.b[9], w17
	umov	w17, v2.b[10]
	mov	v7.b[9], w13
	umov	w13, v3.b[10]
	mov	v16.b[9], w15
	umov	w15, v1.b[10]
	mov	v5.b[10], w16
	umov	w16, v4.b[11]
	mov	v6.b[10], w17
	umov	w17, v2.b[11]
	mov	v7.b[10], w13
	umov	w13, v3.b[11]
	mov	v16.b[10], w15
	umov	w15, v1.b[11]
	mov	v5.b[11], w16
	umov	w16, v4.b[12]
	mov	v6.b[11], w17
	umov	w17, v2.b[12]
	mov	v7.b[11], w13
	umov	w13, v3.b[12]
	mov	v16.b[11], w15
	umov	w15, v1.b[12]
	mov	v5.b[12], w16
	umov	w16, v4.b[13]
	mov	v6.b[12], w17
	umov	w17, v2.b[13]
	mov	v7.b[12], w13
	umov	w13, v3.b[13]
	mov	v16.b[12], w15
	umov	w15, v1.b[13]
	mov	v5.b[13], w16
	umov	w16, v4.b[14]
	mov	v6.b[13], w17
	umov	w17, v2.b[14]
	mov	v7.b[13], w13
	umov	w13, v3.b[14]
	mov	v16.b[13], w15
	umov	w15, v1.b[14]
	mov	v5.b[14], w16
	umov	w16, v4.b[15]
	mov	v6.b[14], w17
	umov	w17, v2.b[15]
	mov	v7.b[14], w13
	umov	w13, v3.b[15]
	mov	v16.b[14], w15
	umov	w15, v1.b[15]
	mov	v5.b[15], w16
	mov	v6.b[15], w17
	mov	v7.b[15], w13
	mov	v16.b[15], w15
	shl	v2.16b, v5.16b, #7
	shl	v1.16b, v6.16b, #7
	shl	v3.16b, v7.16b, #7
	shl	v4.16b, v16.16b, #7
	cmlt	v2.16b, v2.16b, #0
	cmlt	v1.16b, v1.16b, #0
	cmlt	v3.16b, v3.16b, #0
	cmlt	v4.16b, v4.16b, #0
	and	v2.16b, v2.16b, v0.16b
	and	v1.16b, v1.16b, v0.16b
	and	v4.16b, v4.16b, v0.16b
	and	v0.16b, v3.16b, v0.16b
	addp	v1.16b, v1.16b, v2.16b
	addp	v0.16b, v4.16b, v0.16b
	addp	v0.16b, v1.16b, v0.16b
	addp	v0.16b, v0.16b, v0.16b
	fmov	x15, d0
	mov	x13, x14
	mov	x14, x12
	cbnz	x15, .LBB4_36
	b	.LBB4_38
.LBB4_42:
	add	x14, x13, #64
	b	.LBB4_36
.LBB4_43:
	mov	x0, x16
	ret
.LBB4_44:
	mov	x1, x8
	mov	x0, x1
	ret
.Lfunc_end4:
	.size	"unftp_control_codecs::line_parser::parser::word_len", .Lfunc_end4-"unftp_control_codecs::line_parser::parser::word_len"

	.section	".text.unftp_control_defs::verb::verb_of","ax",@progbits
	.p2align	2
	.type	"unftp_control_defs::verb::verb_of",@function
"unftp_control_defs::verb::verb_of":
	mov	w9, #21333
	rev	w8, w0
	mov	w1, wzr
	movk	w9, #20545, lsl #16
	cmp	w8, w9
	b.gt	.LBB5_8
	mov	w9, #16723
	movk	w9, #17989, lsl #16
	cmp	w8, w9
	b.le	.LBB5_15
	mov	w9, #21331
	movk	w9, #19788, lsl #16
	cmp	w8, w9
	b.gt	.LBB5_27
	mov	w9, #21580
	movk	w9, #19780, lsl #16
	cmp	w8, w9
	b.gt	.LBB5_54
	mov	w9, #16724
	movk	w9, #17989, lsl #16
	cmp	w8, w9
	b.eq	.LBB5_92
	mov	w9, #19536
	movk	w9, #18501, lsl #16
	cmp	w8, w9
	b.eq	.LBB5_99
	mov	w9, #21332
	mov	w0, w1
	movk	w9, #19529, lsl #16
	cmp	w8, w9
	b.ne	.LBB5_82
	mov	w0, #1
	mov	w1, #16
	ret
.LBB5_8:
	mov	w9, #21572
	movk	w9, #21321, lsl #16
	cmp	w8, w9
	b.le	.LBB5_21
	mov	w9, #21331
	movk	w9, #21337, lsl #16
	cmp	w8, w9
	b.gt	.LBB5_32
	mov	w9, #20305
	movk	w9, #21332, lsl #16
	cmp	w8, w9
	b.gt	.LBB5_58
	mov	w9, #21573
	movk	w9, #21321, lsl #16
	cmp	w8, w9
	b.eq	.LBB5_93
	mov	w9, #23109
	movk	w9, #21321, lsl #16
	cmp	w8, w9
	b.eq	.LBB5_100
	mov	w9, #16724
	mov	w0, w1
	movk	w9, #21332, lsl #16
	cmp	w8, w9
	b.ne	.LBB5_82
	mov	w0, #1
	mov	w1, #4
	ret
.LBB5_15:
	mov	w9, #17663
	movk	w9, #16985, lsl #16
	cmp	w8, w9
	b.le	.LBB5_37
	mov	w9, #17407
	movk	w9, #17239, lsl #16
	cmp	w8, w9
	b.gt	.LBB5_46
	mov	w9, #17664
	movk	w9, #16985, lsl #16
	cmp	w8, w9
	b.eq	.LBB5_77
	mov	w9, #17152
	movk	w9, #17219, lsl #16
	cmp	w8, w9
	b.eq	.LBB5_86
	mov	w9, #21840
	mov	w0, w1
	movk	w9, #17220, lsl #16
	cmp	w8, w9
	b.ne	.LBB5_82
	mov	w0, #1
	mov	w1, #23
	ret
.LBB5_21:
	mov	w9, #18771
	movk	w9, #20821, lsl #16
	cmp	w8, w9
	b.le	.LBB5_42
	mov	w9, #17407
	movk	w9, #21069, lsl #16
	cmp	w8, w9
	b.gt	.LBB5_50
	mov	w9, #18772
	movk	w9, #20821, lsl #16
	cmp	w8, w9
	b.eq	.LBB5_77
	mov	w9, #21332
	movk	w9, #21061, lsl #16
	cmp	w8, w9
	b.eq	.LBB5_87
	mov	w9, #21586
	mov	w0, w1
	movk	w9, #21061, lsl #16
	cmp	w8, w9
	b.ne	.LBB5_82
	mov	w0, #1
	mov	w1, #13
	ret
.LBB5_27:
	mov	w9, #20303
	movk	w9, #20047, lsl #16
	cmp	w8, w9
	b.gt	.LBB5_62
	mov	w9, #21332
	movk	w9, #19788, lsl #16
	cmp	w8, w9
	b.eq	.LBB5_94
	mov	w9, #17477
	movk	w9, #19791, lsl #16
	cmp	w8, w9
	b.eq	.LBB5_101
	mov	w9, #21332
	mov	w0, w1
	movk	w9, #20044, lsl #16
	cmp	w8, w9
	b.ne	.LBB5_82
	mov	w0, #1
	mov	w1, #17
	ret
.LBB5_32:
	mov	w9, #22339
	movk	w9, #22595, lsl #16
	cmp	w8, w9
	b.gt	.LBB5_66
	mov	w9, #21332
	movk	w9, #21337, lsl #16
	cmp	w8, w9
	b.eq	.LBB5_95
	mov	w9, #20549
	movk	w9, #21593, lsl #16
	cmp	w8, w9
	b.eq	.LBB5_102
	mov	w9, #17746
	mov	w0, w1
	movk	w9, #21843, lsl #16
	cmp	w8, w9
	b.ne	.LBB5_82
	mov	w1, wzr
	mov	w0, #1
	ret
.LBB5_37:
	mov	w9, #19534
	movk	w9, #16716, lsl #16
	cmp	w8, w9
	b.le	.LBB5_71
	mov	w9, #19535
	movk	w9, #16716, lsl #16
	cmp	w8, w9
	b.eq	.LBB5_84
	mov	w9, #20549
	movk	w9, #16720, lsl #16
	cmp	w8, w9
	b.eq	.LBB5_90
	mov	w9, #21576
	mov	w0, w1
	movk	w9, #16725, lsl #16
	cmp	w8, w9
	b.ne	.LBB5_82
	mov	w0, #1
	mov	w1, #34
	ret
.LBB5_42:
	mov	w9, #21075
	movk	w9, #20559, lsl #16
	cmp	w8, w9
	b.le	.LBB5_74
	mov	w9, #21076
	movk	w9, #20559, lsl #16
	cmp	w8, w9
	b.eq	.LBB5_85
	mov	w9, #20308
	movk	w9, #20562, lsl #16
	cmp	w8, w9
	b.eq	.LBB5_91
	mov	w9, #17408
	movk	w9, #20567, lsl #16
	b	.LBB5_69
.LBB5_46:
	mov	w9, #17408
	movk	w9, #17239, lsl #16
	cmp	w8, w9
	b.eq	.LBB5_78
	mov	w9, #19525
	movk	w9, #17477, lsl #16
	cmp	w8, w9
	b.eq	.LBB5_88
	mov	w9, #21334
	mov	w0, w1
	movk	w9, #17744, lsl #16
	cmp	w8, w9
	b.ne	.LBB5_82
	mov	w0, #1
	mov	w1, #11
	ret
.LBB5_50:
	mov	w9, #17408
	movk	w9, #21069, lsl #16
	cmp	w8, w9
	b.eq	.LBB5_80
	mov	w9, #18002
	movk	w9, #21070, lsl #16
	cmp	w8, w9
	b.eq	.LBB5_89
	mov	w9, #21583
	mov	w0, w1
	movk	w9, #21070, lsl #16
	cmp	w8, w9
	b.ne	.LBB5_82
	mov	w0, #1
	mov	w1, #33
	ret
.LBB5_54:
	mov	w9, #21581
	movk	w9, #19780, lsl #16
	cmp	w8, w9
	b.eq	.LBB5_96
	mov	w9, #17408
	movk	w9, #19787, lsl #16
	cmp	w8, w9
	b.eq	.LBB5_79
	mov	w9, #21316
	mov	w0, w1
	movk	w9, #19788, lsl #16
	cmp	w8, w9
	b.ne	.LBB5_82
	mov	w0, #1
	mov	w1, #19
	ret
.LBB5_58:
	mov	w9, #20306
	movk	w9, #21332, lsl #16
	cmp	w8, w9
	b.eq	.LBB5_97
	mov	w9, #20309
	movk	w9, #21332, lsl #16
	cmp	w8, w9
	b.eq	.LBB5_103
	mov	w9, #21077
	mov	w0, w1
	movk	w9, #21332, lsl #16
	cmp	w8, w9
	b.ne	.LBB5_82
	mov	w0, #1
	mov	w1, #6
	ret
.LBB5_62:
	mov	w9, #20304
	movk	w9, #20047, lsl #16
	cmp	w8, w9
	b.eq	.LBB5_98
	mov	w9, #21587
	movk	w9, #20304, lsl #16
	cmp	w8, w9
	b.eq	.LBB5_104
	mov	w9, #21331
	mov	w0, w1
	movk	w9, #20545, lsl #16
	cmp	w8, w9
	b.ne	.LBB5_82
	mov	w1, #1
	mov	w0, #1
	ret
.LBB5_66:
	mov	w9, #22340
	movk	w9, #22595, lsl #16
	cmp	w8, w9
	b.eq	.LBB5_78
	mov	w9, #19268
	movk	w9, #22605, lsl #16
	cmp	w8, w9
	b.eq	.LBB5_79
	mov	w9, #22340
	movk	w9, #22608, lsl #16
.LBB5_69:
	cmp	w8, w9
	mov	w0, w1
	b.ne	.LBB5_82
	mov	w0, #1
	mov	w1, #21
	ret
.LBB5_71:
	mov	w9, #20306
	movk	w9, #16706, lsl #16
	cmp	w8, w9
	b.eq	.LBB5_81
	mov	w9, #17236
	mov	w0, w1
	movk	w9, #16707, lsl #16
	cmp	w8, w9
	b.ne	.LBB5_82
	mov	w0, #1
	mov	w1, #2
	ret
.LBB5_74:
	mov	w9, #21334
	movk	w9, #20545, lsl #16
	cmp	w8, w9
	b.eq	.LBB5_83
	mov	w9, #21338
	mov	w0, w1
	movk	w9, #20546, lsl #16
	cmp	w8, w9
	b.ne	.LBB5_82
	mov	w0, #1
	mov	w1, #36
	ret
.LBB5_77:
	mov	w0, #1
	mov	w1, #27
	ret
.LBB5_78:
	mov	w0, #1
	mov	w1, #22
	ret
.LBB5_79:
	mov	w0, #1
	mov	w1, #28
	ret
.LBB5_80:
	mov	w0, #1
	mov	w1, #26
	ret
.LBB5_81:
	mov	w0, #1
	mov	w1, #30
.LBB5_82:
	ret
.LBB5_83:
	mov	w0, #1
	mov	w1, #10
	ret
.LBB5_84:
	mov	w0, #1
	mov	w1, #29
	ret
.LBB5_85:
	mov	w0, #1
	mov	w1, #12
	ret
.LBB5_86:
	mov	w0, #1
	mov	w1, #35
	ret
.LBB5_87:
	mov	w0, #1
	mov	w1, #39
	ret
.LBB5_88:
	mov	w0, #1
	mov	w1, #25
	ret
.LBB5_89:
	mov	w0, #1
	mov	w1, #32
	ret
.LBB5_90:
	mov	w0, #1
	mov	w1, #15
	ret
.LBB5_91:
	mov	w0, #1
	mov	w1, #37
	ret
.LBB5_92:
	mov	w0, #1
	mov	w1, #20
	ret
.LBB5_93:
	mov	w0, #1
	mov	w1, #42
	ret
.LBB5_94:
	mov	w0, #1
	mov	w1, #18
	ret
.LBB5_95:
	mov	w0, #1
	mov	w1, #3
	ret
.LBB5_96:
	mov	w0, #1
	mov	w1, #40
	ret
.LBB5_97:
	mov	w0, #1
	mov	w1, #14
	ret
.LBB5_98:
	mov	w0, #1
	mov	w1, #9
	ret
.LBB5_99:
	mov	w0, #1
	mov	w1, #8
	ret
.LBB5_100:
	mov	w0, #1
	mov	w1, #38
	ret
.LBB5_101:
	mov	w0, #1
	mov	w1, #7
	ret
.LBB5_102:
	mov	w0, #1
	mov	w1, #5
	ret
.LBB5_103:
	mov	w0, #1
	mov	w1, #31
	ret
.LBB5_104:
	mov	w0, #1
	mov	w1, #24
	ret
.Lfunc_end5:
	.size	"unftp_control_defs::verb::verb_of", .Lfunc_end5-"unftp_control_defs::verb::verb_of"

	.section	".text.core::str::utf8::from_utf8","ax",@progbits
	.p2align	2
	.type	"core::str::utf8::from_utf8",@function
"core::str::utf8::from_utf8":
	sub	sp, sp, #64
	stp	x22, x21, [sp, #32]
	mov	x21, x1
	stp	x20, x19, [sp, #48]
	mov	x20, x2
	mov	x19, x0
	stp	x29, x30, [sp, #16]
	add	x29, sp, #16
	cbz	x2, .LBB6_51
	mov	x9, xzr
	sub	x22, x20, #8
	b	.LBB6_6
.LBB6_2:
	and	w11, w11, #0xff
	tbnz	w11, #7, .LBB6_23
.LBB6_3:
	mov	w12, #1
.LBB6_4:
	add	x8, x12, x9
.LBB6_5:
	cmp	x8, x20
	mov	x9, x8
	b.hs	.LBB6_51
.LBB6_6:
	add	x8, x21, x9
	sub	x10, x20, x9
	ldrsb	w11, [x8]
	cmp	x10, #2
	b.lo	.LBB6_2
	tbnz	w11, #31, .LBB6_2
	ldrsb	w11, [x8, #1]
	tbnz	w11, #31, .LBB6_3
	cmp	x10, #7
	stp	x21, x20, [sp]
	b.hi	.LBB6_28
	ldrsb	w8, [x21, x9]
	tbnz	w8, #31, .LBB6_43
	add	x8, x9, #1
	cmp	x8, x20
	b.eq	.LBB6_51
	ldrsb	w10, [x21, x8]
	tbnz	w10, #31, .LBB6_5
	add	x8, x9, #2
	cmp	x8, x20
	b.eq	.LBB6_51
	ldrsb	w10, [x21, x8]
	tbnz	w10, #31, .LBB6_5
	add	x8, x9, #3
	cmp	x8, x20
	b.eq	.LBB6_51
	ldrsb	w10, [x21, x8]
	tbnz	w10, #31, .LBB6_5
	add	x8, x9, #4
	cmp	x8, x20
	b.eq	.LBB6_51
	ldrsb	w10, [x21, x8]
	tbnz	w10, #31, .LBB6_5
	add	x8, x9, #5
	cmp	x8, x20
	b.eq	.LBB6_51
	ldrsb	w10, [x21, x8]
	tbnz	w10, #31, .LBB6_5
	add	x8, x9, #6
	cmp	x8, x20
	b.eq	.LBB6_51
	ldrsb	w9, [x21, x8]
	tbnz	w9, #31, .LBB6_5
	b	.LBB6_51
.LBB6_23:
	cmp	w11, #194
	b.lo	.LBB6_59
	cmp	w11, #223
	b.hi	.LBB6_36
	cmp	x10, #2
	b.lo	.LBB6_58
	ldrsb	w12, [x8, #1]
	cmn	w12, #65
	b.gt	.LBB6_55
	mov	w12, #2
	b	.LBB6_4
.LBB6_28:
	ldr	x8, [x8]
	mov	w10, #8
	ands	x8, x8, #0x8080808080808080
	rbit	x8, x8
	clz	x8, x8
	lsr	x8, x8, #3
	csel	x8, x10, x8, eq
	add	x8, x8, x9
	add	x9, x9, #8
	cmp	x8, x9
	b.lo	.LBB6_5
	sub	x9, x20, x8
	cmp	x9, #32
	b.lo	.LBB6_32
.LBB6_30:
	add	x9, x21, x8
	ldp	q1, q0, [x9]
	orr	v0.16b, v1.16b, v0.16b
	ext	v1.16b, v0.16b, v0.16b, #8
	orr	v0.8b, v0.8b, v1.8b
	fmov	x9, d0
	tst	x9, #0x8080808080808080
	b.ne	.LBB6_32
	mov	x0, sp
	add	x1, x8, #32
	mov	x2, x20
	bl	"core::slice::words::skip_far::<#52f9edcae2f82f51>"
	sub	x9, x20, x0
	mov	x8, x0
	cmp	x9, #31
	b.hi	.LBB6_30
.LBB6_32:
	sub	x9, x20, x8
.LBB6_33:
	cmp	x9, #9
	b.lo	.LBB6_50
	ldr	x10, [x21, x8]
	mov	w11, #8
	sub	x9, x9, #8
	ands	x10, x10, #0x8080808080808080
	rbit	x10, x10
	clz	x10, x10
	lsr	x10, x10, #3
	csel	x10, x11, x10, eq
	add	x11, x10, x8
	add	x8, x8, #8
	cmp	x11, x8
	b.hs	.LBB6_33
	add	x8, x10, x8
	sub	x8, x8, #8
	b	.LBB6_5
.LBB6_36:
	cmp	w11, #239
	b.hi	.LBB6_44
	cmp	x10, #3
	b.lo	.LBB6_53
	ldrsb	w12, [x8, #1]
	cmn	w12, #65
	b.gt	.LBB6_55
	ldrsb	w13, [x8, #2]
	cmn	w13, #65
	b.gt	.LBB6_55
	and	w13, w12, #0xff
	mov	w14, #-14464
	add	w13, w13, w11, lsl #6
	add	w13, w13, w14
	cmp	w13, #32
	b.lo	.LBB6_55
	cmp	w13, #896
	mov	w12, #3
	csel	x14, xzr, x12, lo
	cmp	w13, #864
	b.lo	.LBB6_4
	mov	x12, x14
	b	.LBB6_49
.LBB6_43:
	mov	x8, x9
	b	.LBB6_5
.LBB6_44:
	cmp	x10, #4
	b.lo	.LBB6_52
	ldrsb	w12, [x8, #1]
	cmn	w12, #65
	b.gt	.LBB6_52
	ldrsb	w13, [x8, #2]
	cmn	w13, #65
	b.gt	.LBB6_52
	ldrsb	w13, [x8, #3]
	cmn	w13, #65
	b.gt	.LBB6_52
	and	w12, w12, #0xff
	mov	w13, #-15488
	add	w12, w12, w11, lsl #6
	add	w13, w12, w13
	mov	w12, #4
	cmp	w13, #272
	csel	x12, x12, xzr, lo
	cmp	w13, #16
	b.lo	.LBB6_52
.LBB6_49:
	cbnz	x12, .LBB6_4
	b	.LBB6_52
.LBB6_50:
	ldr	x8, [x21, x22]
	mov	w9, #8
	ands	x8, x8, #0x8080808080808080
	rbit	x8, x8
	clz	x8, x8
	lsr	x8, x8, #3
	csel	x8, x9, x8, eq
	add	x8, x8, x22
	b	.LBB6_5
.LBB6_51:
	stp	xzr, x21, [x19]
	str	x20, [x19, #16]
	ldp	x20, x19, [sp, #48]
	ldp	x22, x21, [sp, #32]
	ldp	x29, x30, [sp, #16]
	add	sp, sp, #64
	ret
.LBB6_52:
	cmp	w11, #244
	b.hi	.LBB6_59
.LBB6_53:
	cmp	x10, #2
	b.lo	.LBB6_58
	ldrb	w12, [x8, #1]
.LBB6_55:
	cmp	w11, #240
	mov	w13, #-128
	mov	w14, #-112
	mov	w15, #-96
	csel	w13, w14, w13, eq
	cmp	w11, #224
	mov	w14, #-65
	csel	w13, w15, w13, eq
	mov	w15, #-113
	cmp	w11, #244
	and	w16, w13, #0xf0
	csel	w13, w15, w14, eq
	cmp	w11, #237
	mov	w11, #-97
	csel	w13, w11, w13, eq
	cmp	w16, w12, uxtb
	mov	w11, #257
	b.hi	.LBB6_60
	and	w12, w12, #0xff
	cmp	w12, w13, uxtb
	b.hi	.LBB6_60
	cmp	x10, #2
	b.ne	.LBB6_61
.LBB6_58:
	mov	x11, xzr
	b	.LBB6_60
.LBB6_59:
	mov	w11, #257
.LBB6_60:
	mov	w8, #1
	str	x11, [x19, #16]
	stp	x8, x9, [x19]
	ldp	x20, x19, [sp, #48]
	ldp	x22, x21, [sp, #32]
	ldp	x29, x30, [sp, #16]
	add	sp, sp, #64
	ret
.LBB6_61:
	ldrsb	w8, [x8, #2]
	cmn	w8, #65
	b.gt	.LBB6_63
	cmp	x10, #3
	mov	w8, #769
	csel	x11, x8, xzr, hi
	b	.LBB6_60
.LBB6_63:
	mov	w11, #513
	b	.LBB6_60
.Lfunc_end6:
	.size	"core::str::utf8::from_utf8", .Lfunc_end6-"core::str::utf8::from_utf8"

	.section	".text.core::slice::words::skip_far::<#52f9edcae2f82f51>","ax",@progbits
	.p2align	2
	.type	"core::slice::words::skip_far::<#52f9edcae2f82f51>",@function
"core::slice::words::skip_far::<#52f9edcae2f82f51>":
	sub	x8, x2, x1
	cmp	x8, #64
	b.lo	.LBB7_4
	ldr	x9, [x0]
.LBB7_2:
	add	x10, x9, x1
	ldp	q0, q1, [x10, #32]
	ldp	q2, q3, [x10]
	orr	v1.16b, v3.16b, v1.16b
	orr	v0.16b, v2.16b, v0.16b
	orr	v0.16b, v0.16b, v1.16b
	ext	v1.16b, v0.16b, v0.16b, #8
	orr	v0.8b, v0.8b, v1.8b
	fmov	x10, d0
	tst	x10, #0x8080808080808080
	b.ne	.LBB7_4
	sub	x8, x8, #64
	add	x1, x1, #64
	cmp	x8, #63
	b.hi	.LBB7_2
.LBB7_4:
	mov	x0, x1
	ret
.Lfunc_end7:
	.size	"core::slice::words::skip_far::<#52f9edcae2f82f51>", .Lfunc_end7-"core::slice::words::skip_far::<#52f9edcae2f82f51>"

	.section	.rodata.cst16,"aM",@progbits,16
	.p2align	4, 0x0
.LCPI8_0:
	.xword	1
	.xword	0
	.section	".text.unftp_control_codecs::line_parser::value::some_value","ax",@progbits
	.p2align	2
	.type	"unftp_control_codecs::line_parser::value::some_value",@function
"unftp_control_codecs::line_parser::value::some_value":
	sub	sp, sp, #80
	movi	v0.2d, #0000000000000000
	sub	x8, x2, #1
	str	x21, [sp, #48]
	stp	x20, x19, [sp, #64]
	mov	x21, x2
	mov	x20, x1
	mov	x19, x0
	cmp	x8, #1
	stp	x29, x30, [sp, #32]
	add	x29, sp, #32
	stp	q0, q0, [sp]
	b.ne	.LBB8_3
	ldurb	w8, [x20, #1]
	cmp	w8, #10
	b.ne	.LBB8_4
	mov	w8, #1
	b	.LBB8_14
.LBB8_3:
	cmp	x21, #2
	b.lo	.LBB8_6
.LBB8_4:
	ldrb	w8, [x20]
	cmp	w8, #13
	b.ne	.LBB8_6
	ldurb	w8, [x20, #1]
	cbz	w8, .LBB8_16
.LBB8_6:
	add	x0, x20, #1
	sub	x1, x21, #1
	bl	"unftp_control_codecs::line_parser::value::fresh_len"
	add	x8, x0, #1
	subs	x9, x21, x8
	b.eq	.LBB8_15
	cmp	x9, #1
	add	x9, x20, x8
	b.ne	.LBB8_10
	ldrb	w9, [x9]
.LBB8_9:
	cmp	w9, #10
	b.eq	.LBB8_14
	b	.LBB8_15
.LBB8_10:
	ldrb	w10, [x9]
	cmp	w10, #10
	b.eq	.LBB8_14
	cmp	w10, #13
	b.ne	.LBB8_15
	ldrb	w9, [x9, #1]
	cbnz	w9, .LBB8_9
	mov	x8, x0
	mov	x0, sp
	mov	x1, x20
	add	x3, x8, #3
	mov	x2, x21
	b	.LBB8_17
.LBB8_14:
	adrp	x9, .LCPI8_0
	stp	x20, x8, [sp, #16]
	ldr	q0, [x9, :lo12:.LCPI8_0]
	ldr	q1, [sp, #16]
	stp	q0, q1, [x19]
	ldp	x20, x19, [sp, #64]
	ldr	x21, [sp, #48]
	ldp	x29, x30, [sp, #32]
	add	sp, sp, #80
	ret
.LBB8_15:
	movi	v0.2d, #0000000000000000
	stp	q0, q0, [x19]
	ldp	x20, x19, [sp, #64]
	ldr	x21, [sp, #48]
	ldp	x29, x30, [sp, #32]
	add	sp, sp, #80
	ret
.LBB8_16:
	mov	x0, sp
	mov	x1, x20
	mov	x2, x21
	mov	w3, #2
.LBB8_17:
	bl	"unftp_control_codecs::line_parser::value::escaped_value"
	ldrb	w8, [sp]
	ldrb	w9, [sp, #8]
	ldr	q0, [sp, #16]
	stp	x8, x9, [x19]
	str	q0, [x19, #16]
	ldp	x20, x19, [sp, #64]
	ldr	x21, [sp, #48]
	ldp	x29, x30, [sp, #32]
	add	sp, sp, #80
	ret
.Lfunc_end8:
	.size	"unftp_control_codecs::line_parser::value::some_value", .Lfunc_end8-"unftp_control_codecs::line_parser::value::some_value"

	.section	.rodata.cst16,"aM",@progbits,16
	.p2align	4, 0x0
.LCPI9_0:
	.byte	1
	.byte	2
	.byte	4
	.byte	8
	.byte	16
	.byte	32
	.byte	64
	.byte	128
	.byte	1
	.byte	2
	.byte	4
	.byte	8
	.byte	16
	.byte	32
	.byte	64
	.byte	128
	.section	".text.core::cmp::slices::groups_equal::<i8,31'core::cmp::numbers::U8PartialEq{}>","ax",@progbits
	.p2align	2
	.type	"core::cmp::slices::groups_equal::<i8,31'core::cmp::numbers::U8PartialEq{}>",@function
"core::cmp::slices::groups_equal::<i8,31'core::cmp::numbers::U8PartialEq{}>":
	subs	x9, x1, #8
	b.hi	.LBB9_2
	sub	x8, x1, #4
	ldr	s0, [x0]
	ldr	s1, [x2]
	add	x9, x0, x8
	add	x8, x2, x8
	ld1	{ v0.s }[1], [x9]
	ld1	{ v1.s }[1], [x8]
	fmov	x8, d0
	fmov	x9, d1
	cmp	x8, x9
	cset	w8, ne
	eor	w0, w8, #0x1
	ret
.LBB9_2:
	subs	x8, x1, #32
	b.hi	.LBB9_4
	cmp	x9, #8
	mov	w8, #8
	mov	w10, #16
	csel	x8, x9, x8, lo
	cmp	x9, #16
	ldr	d0, [x0]
	ldr	d1, [x2]
	ldr	d2, [x0, x8]
	ldr	d3, [x2, x8]
	csel	x8, x9, x10, lo
	ldr	d5, [x2, x9]
	ldr	d4, [x0, x8]
	mov	v0.d[1], v2.d[0]
	mov	v1.d[1], v3.d[0]
	ldr	d2, [x2, x8]
	ldr	d3, [x0, x9]
	mov	v4.d[1], v3.d[0]
	mov	v2.d[1], v5.d[0]
	cmeq	v0.16b, v0.16b, v1.16b
	cmeq	v1.16b, v4.16b, v2.16b
	b	.LBB9_17
.LBB9_4:
	cmp	x1, #65
	b.hs	.LBB9_6
	ldp	q1, q0, [x0]
	add	x9, x2, x8
	ldp	q3, q2, [x2]
	add	x8, x0, x8
	ldp	q4, q5, [x9]
	cmeq	v1.16b, v1.16b, v3.16b
	cmeq	v0.16b, v0.16b, v2.16b
	ldp	q2, q3, [x8]
	mvn	v1.16b, v1.16b
	mvn	v0.16b, v0.16b
	cmeq	v2.16b, v2.16b, v4.16b
	cmeq	v3.16b, v3.16b, v5.16b
	orn	v0.16b, v0.16b, v3.16b
	orn	v1.16b, v1.16b, v2.16b
	orr	v0.16b, v1.16b, v0.16b
	umaxv	b0, v0.16b
	fmov	w8, s0
	and	w8, w8, #0x1
	eor	w0, w8, #0x1
	ret
.LBB9_6:
	and	x9, x1, #0xffffffffffffffc0
	add	x10, x0, #32
	add	x12, x2, #32
	mov	w11, #32
	mov	x13, x1
.LBB9_7:
	ldp	q0, q3, [x12, #-32]
	ldp	q1, q2, [x10, #-32]
	ldp	q4, q5, [x12], #64
	cmeq	v0.16b, v1.16b, v0.16b
	cmeq	v1.16b, v2.16b, v3.16b
	ldp	q2, q3, [x10], #64
	mvn	v0.16b, v0.16b
	mvn	v1.16b, v1.16b
	cmeq	v2.16b, v2.16b, v4.16b
	cmeq	v3.16b, v3.16b, v5.16b
	orn	v0.16b, v0.16b, v2.16b
	orn	v1.16b, v1.16b, v3.16b
	orr	v0.16b, v1.16b, v0.16b
	umaxv	b0, v0.16b
	fmov	w14, s0
	tbnz	w14, #0, .LBB9_10
	sub	x13, x13, #64
	add	x11, x11, #64
	cmp	x13, #64
	b.hs	.LBB9_7
	sub	x10, x1, x9
	cmp	x10, #32
	b.hs	.LBB9_11
	b	.LBB9_16
.LBB9_10:
	sub	x9, x11, #32
	sub	x10, x1, x9
	cmp	x10, #32
	b.lo	.LBB9_16
.LBB9_11:
	add	x11, x0, x9
	add	x9, x2, x9
.LBB9_12:
	ldp	q0, q1, [x11], #32
	ldp	q2, q3, [x9], #32
	adrp	x12, .LCPI9_0
	cmeq	v1.16b, v1.16b, v3.16b
	cmeq	v0.16b, v0.16b, v2.16b
	ldr	q2, [x12, :lo12:.LCPI9_0]
	bic	v1.16b, v2.16b, v1.16b
	bic	v0.16b, v2.16b, v0.16b
	ext	v2.16b, v1.16b, v1.16b, #8
	ext	v3.16b, v0.16b, v0.16b, #8
	zip1	v1.16b, v1.16b, v2.16b
	zip1	v0.16b, v0.16b, v3.16b
	addv	h1, v1.8h
	addv	h0, v0.8h
	fmov	w12, s1
	fmov	w13, s0
	orr	w12, w13, w12
	tst	w12, #0xffff
	b.ne	.LBB9_14
	sub	x10, x10, #32
	cmp	x10, #32
	b.hs	.LBB9_12
	b	.LBB9_16
.LBB9_14:
	cmp	x10, #31
	b.ls	.LBB9_16
	mov	w8, #1
	eor	w0, w8, #0x1
	ret
.LBB9_16:
	add	x9, x0, x8
	add	x8, x2, x8
	ldp	q0, q3, [x8]
	ldp	q1, q2, [x9]
	cmeq	v0.16b, v1.16b, v0.16b
	cmeq	v1.16b, v2.16b, v3.16b
.LBB9_17:
	mvn	v0.16b, v0.16b
	orn	v0.16b, v0.16b, v1.16b
	umaxv	b0, v0.16b
	fmov	w8, s0
	and	w8, w8, #0x1
	eor	w0, w8, #0x1
	ret
.Lfunc_end9:
	.size	"core::cmp::slices::groups_equal::<i8,31'core::cmp::numbers::U8PartialEq{}>", .Lfunc_end9-"core::cmp::slices::groups_equal::<i8,31'core::cmp::numbers::U8PartialEq{}>"

	.section	.rodata.cst16,"aM",@progbits,16
	.p2align	4, 0x0
.LCPI10_0:
	.byte	1
	.byte	2
	.byte	4
	.byte	8
	.byte	16
	.byte	32
	.byte	64
	.byte	128
	.byte	1
	.byte	2
	.byte	4
	.byte	8
	.byte	16
	.byte	32
	.byte	64
	.byte	128
	.section	".text.unftp_control_codecs::line_parser::value::fresh_len","ax",@progbits
	.p2align	2
	.type	"unftp_control_codecs::line_parser::value::fresh_len",@function
"unftp_control_codecs::line_parser::value::fresh_len":
	cbz	x1, .LBB10_2
	ldrb	w8, [x0]
	cmp	w8, #13
	b.ne	.LBB10_3
.LBB10_2:
	mov	x0, xzr
	ret
.LBB10_3:
	cmp	x1, #33
	add	x9, x0, #1
	sub	x8, x1, #1
	b.hs	.LBB10_9
	cbz	x8, .LBB10_8
	mov	x10, xzr
.LBB10_6:
	ldrb	w11, [x9, x10]
	cmp	w11, #10
	ccmp	w11, #13, #4, ne
	b.eq	.LBB10_50
	add	x10, x10, #1
	cmp	x8, x10
	b.ne	.LBB10_6
.LBB10_8:
	add	x0, x8, #1
	ret
.LBB10_9:
	mov	x18, xzr
	add	x10, x0, x1
	add	x11, x0, #97
	sub	x12, x1, #65
	add	x13, x0, #161
.LBB10_10:
	sub	x15, x8, x18
	adrp	x14, .LCPI10_0
	cmp	x15, #191
	b.ls	.LBB10_13
	movi	v0.16b, #13
	add	x15, x9, x18
	movi	v1.16b, #10
	ldp	q3, q2, [x15]
	add	x16, x18, #64
	ldp	q4, q5, [x15, #32]
	cmeq	v6.16b, v3.16b, v0.16b
	cmeq	v7.16b, v2.16b, v0.16b
	cmeq	v3.16b, v3.16b, v1.16b
	cmeq	v2.16b, v2.16b, v1.16b
	cmeq	v16.16b, v4.16b, v0.16b
	cmeq	v17.16b, v5.16b, v0.16b
	cmeq	v4.16b, v4.16b, v1.16b
	cmeq	v1.16b, v5.16b, v1.16b
	ldr	q0, [x14, :lo12:.LCPI10_0]
	orr	v3.16b, v6.16b, v3.16b
	orr	v2.16b, v7.16b, v2.16b
	orr	v1.16b, v17.16b, v1.16b
	orr	v4.16b, v16.16b, v4.16b
	and	v3.16b, v3.16b, v0.16b
	and	v2.16b, v2.16b, v0.16b
	and	v4.16b, v4.16b, v0.16b
	and	v1.16b, v1.16b, v0.16b
	addp	v2.16b, v3.16b, v2.16b
	addp	v1.16b, v4.16b, v1.16b
	addp	v1.16b, v2.16b, v1.16b
	addp	v1.16b, v1.16b, v1.16b
	fmov	x17, d1
	cbz	x17, .LBB10_19
	add	x15, x18, #64
	mov	x16, x18
	b	.LBB10_42
.LBB10_13:
	cmp	x15, #64
	b.lo	.LBB10_18
	neg	x16, x18
	add	x17, x0, x18
.LBB10_15:
	movi	v0.16b, #13
	movi	v5.16b, #10
	ldur	q1, [x17, #1]
	ldur	q2, [x17, #17]
	ldur	q3, [x17, #49]
	ldur	q4, [x17, #33]
	cmeq	v6.16b, v2.16b, v0.16b
	cmeq	v7.16b, v1.16b, v0.16b
	cmeq	v16.16b, v2.16b, v5.16b
	cmeq	v17.16b, v1.16b, v5.16b
	cmeq	v18.16b, v3.16b, v0.16b
	cmeq	v0.16b, v4.16b, v0.16b
	cmeq	v19.16b, v3.16b, v5.16b
	cmeq	v5.16b, v4.16b, v5.16b
	orr	v6.16b, v6.16b, v16.16b
	orr	v7.16b, v7.16b, v17.16b
	orr	v0.16b, v0.16b, v5.16b
	orr	v5.16b, v18.16b, v19.16b
	orr	v5.16b, v6.16b, v5.16b
	orr	v6.16b, v7.16b, v0.16b
	ldr	q0, [x14, :lo12:.LCPI10_0]
	and	v6.16b, v6.16b, v0.16b
	and	v5.16b, v5.16b, v0.16b
	addp	v5.16b, v6.16b, v5.16b
	addp	v5.16b, v5.16b, v5.16b
	addp	v5.16b, v5.16b, v5.16b
	fmov	w15, s5
	cbnz	w15, .LBB10_29
	sub	x16, x16, #64
	add	x17, x17, #64
	add	x15, x8, x16
	cmp	x15, #63
	b.hi	.LBB10_15
	neg	x16, x16
	b	.LBB10_35
.LBB10_18:
	mov	x16, x18
	b	.LBB10_35
.LBB10_19:
	sub	x15, x8, x16
	cmp	x15, #128
	b.lo	.LBB10_24
	add	x14, x18, #192
	add	x16, x13, x18
.LBB10_21:
	movi	v5.16b, #13
	movi	v6.16b, #10
	ldp	q2, q1, [x16, #-32]
	ldp	q4, q3, [x16]
	ldp	q18, q17, [x16, #-96]
	cmeq	v16.16b, v1.16b, v5.16b
	cmeq	v1.16b, v1.16b, v6.16b
	cmeq	v7.16b, v2.16b, v5.16b
	cmeq	v2.16b, v2.16b, v6.16b
	cmeq	v19.16b, v3.16b, v5.16b
	cmeq	v3.16b, v3.16b, v6.16b
	cmeq	v21.16b, v4.16b, v5.16b
	cmeq	v4.16b, v4.16b, v6.16b
	cmeq	v22.16b, v17.16b, v5.16b
	orr	v1.16b, v16.16b, v1.16b
	ldp	q16, q20, [x16, #-64]
	orr	v2.16b, v7.16b, v2.16b
	orr	v3.16b, v19.16b, v3.16b
	cmeq	v17.16b, v17.16b, v6.16b
	orr	v4.16b, v21.16b, v4.16b
	cmeq	v21.16b, v18.16b, v5.16b
	cmeq	v18.16b, v18.16b, v6.16b
	cmeq	v7.16b, v20.16b, v5.16b
	cmeq	v20.16b, v20.16b, v6.16b
	cmeq	v19.16b, v16.16b, v5.16b
	cmeq	v16.16b, v16.16b, v6.16b
	orr	v6.16b, v7.16b, v20.16b
	orr	v20.16b, v2.16b, v4.16b
	orr	v7.16b, v21.16b, v18.16b
	orr	v5.16b, v19.16b, v16.16b
	orr	v19.16b, v1.16b, v3.16b
	orr	v16.16b, v22.16b, v17.16b
	orr	v17.16b, v5.16b, v20.16b
	orr	v18.16b, v6.16b, v19.16b
	orr	v18.16b, v16.16b, v18.16b
	orr	v17.16b, v7.16b, v17.16b
	and	v17.16b, v17.16b, v0.16b
	and	v18.16b, v18.16b, v0.16b
	addp	v17.16b, v17.16b, v18.16b
	addp	v17.16b, v17.16b, v17.16b
	addp	v17.16b, v17.16b, v17.16b
	fmov	w17, s17
	cbnz	w17, .LBB10_45
	sub	x15, x15, #128
	add	x14, x14, #128
	add	x16, x16, #128
	cmp	x15, #127
	b.hi	.LBB10_21
	sub	x16, x14, #128
.LBB10_24:
	cmp	x15, #32
	b.lo	.LBB10_28
	sub	x14, x8, x16
.LBB10_26:
	movi	v1.16b, #13
	add	x15, x9, x16
	movi	v2.16b, #10
	ldp	q3, q4, [x15]
	cmeq	v5.16b, v3.16b, v1.16b
	cmeq	v1.16b, v4.16b, v1.16b
	cmeq	v3.16b, v3.16b, v2.16b
	cmeq	v2.16b, v4.16b, v2.16b
	orr	v1.16b, v1.16b, v2.16b
	orr	v2.16b, v5.16b, v3.16b
	and	v2.16b, v2.16b, v0.16b
	and	v1.16b, v1.16b, v0.16b
	addp	v1.16b, v2.16b, v1.16b
	addp	v1.16b, v1.16b, v1.16b
	addp	v1.16b, v1.16b, v1.16b
	fmov	w17, s1
	cbnz	w17, .LBB10_41
	sub	x14, x14, #32
	add	x16, x16, #32
	cmp	x14, #31
	b.hi	.LBB10_26
.LBB10_28:
	movi	v1.16b, #13
	movi	v2.16b, #10
	ldp	q3, q4, [x10, #-32]
	cmeq	v5.16b, v3.16b, v1.16b
	cmeq	v1.16b, v4.16b, v1.16b
	cmeq	v3.16b, v3.16b, v2.16b
	cmeq	v2.16b, v4.16b, v2.16b
	orr	v1.16b, v1.16b, v2.16b
	orr	v2.16b, v5.16b, v3.16b
	and	v2.16b, v2.16b, v0.16b
	and	v0.16b, v1.16b, v0.16b
	addp	v0.16b, v2.16b, v0.16b
	b	.LBB10_40
.LBB10_29:
	add	x15, x8, x16
	neg	x16, x16
	cmp	x15, #64
	b.lo	.LBB10_35
.LBB10_30:
	movi	v5.16b, #13
	movi	v6.16b, #10
	cmeq	v7.16b, v1.16b, v5.16b
	cmeq	v16.16b, v2.16b, v5.16b
	cmeq	v1.16b, v1.16b, v6.16b
	cmeq	v2.16b, v2.16b, v6.16b
	cmeq	v17.16b, v4.16b, v5.16b
	cmeq	v5.16b, v3.16b, v5.16b
	cmeq	v4.16b, v4.16b, v6.16b
	cmeq	v3.16b, v3.16b, v6.16b
	orr	v1.16b, v7.16b, v1.16b
	orr	v2.16b, v16.16b, v2.16b
	orr	v3.16b, v5.16b, v3.16b
	orr	v4.16b, v17.16b, v4.16b
	and	v1.16b, v1.16b, v0.16b
	and	v2.16b, v2.16b, v0.16b
	and	v4.16b, v4.16b, v0.16b
	and	v3.16b, v3.16b, v0.16b
	addp	v1.16b, v1.16b, v2.16b
	addp	v2.16b, v4.16b, v3.16b
	addp	v1.16b, v1.16b, v2.16b
	addp	v1.16b, v1.16b, v1.16b
	fmov	x17, d1
	cbnz	x17, .LBB10_48
	add	x17, x11, x16
	sub	x15, x12, x16
.LBB10_32:
	subs	x18, x15, #64
	b.lo	.LBB10_34
	movi	v5.16b, #13
	movi	v6.16b, #10
	add	x16, x16, #64
	ldp	q1, q2, [x17, #-32]
	mov	x15, x18
	ldp	q4, q3, [x17], #64
	cmeq	v7.16b, v2.16b, v5.16b
	cmeq	v16.16b, v1.16b, v5.16b
	cmeq	v17.16b, v2.16b, v6.16b
	cmeq	v18.16b, v1.16b, v6.16b
	cmeq	v19.16b, v3.16b, v5.16b
	cmeq	v5.16b, v4.16b, v5.16b
	cmeq	v20.16b, v3.16b, v6.16b
	cmeq	v6.16b, v4.16b, v6.16b
	orr	v7.16b, v7.16b, v17.16b
	orr	v16.16b, v16.16b, v18.16b
	orr	v5.16b, v5.16b, v6.16b
	orr	v6.16b, v19.16b, v20.16b
	orr	v6.16b, v7.16b, v6.16b
	orr	v5.16b, v16.16b, v5.16b
	and	v5.16b, v5.16b, v0.16b
	and	v6.16b, v6.16b, v0.16b
	addp	v5.16b, v5.16b, v6.16b
	addp	v5.16b, v5.16b, v5.16b
	addp	v5.16b, v5.16b, v5.16b
	fmov	w2, s5
	cbz	w2, .LBB10_32
	b	.LBB10_30
.LBB10_34:
	add	x16, x16, #64
.LBB10_35:
	cmp	x15, #32
	b.lo	.LBB10_39
	sub	x15, x8, x16
.LBB10_37:
	movi	v0.16b, #13
	add	x17, x9, x16
	movi	v1.16b, #10
	ldp	q2, q3, [x17]
	cmeq	v4.16b, v2.16b, v0.16b
	cmeq	v0.16b, v3.16b, v0.16b
	cmeq	v2.16b, v2.16b, v1.16b
	cmeq	v1.16b, v3.16b, v1.16b
	orr	v0.16b, v0.16b, v1.16b
	orr	v1.16b, v4.16b, v2.16b
	ldr	q2, [x14, :lo12:.LCPI10_0]
	and	v1.16b, v1.16b, v2.16b
	and	v0.16b, v0.16b, v2.16b
	addp	v0.16b, v1.16b, v0.16b
	addp	v0.16b, v0.16b, v0.16b
	addp	v0.16b, v0.16b, v0.16b
	fmov	w17, s0
	cbnz	w17, .LBB10_41
	sub	x15, x15, #32
	add	x16, x16, #32
	cmp	x15, #31
	b.hi	.LBB10_37
.LBB10_39:
	movi	v0.16b, #13
	movi	v1.16b, #10
	ldp	q2, q3, [x10, #-32]
	cmeq	v4.16b, v2.16b, v0.16b
	cmeq	v0.16b, v3.16b, v0.16b
	cmeq	v2.16b, v2.16b, v1.16b
	cmeq	v1.16b, v3.16b, v1.16b
	orr	v0.16b, v0.16b, v1.16b
	orr	v1.16b, v4.16b, v2.16b
	ldr	q2, [x14, :lo12:.LCPI10_0]
	and	v1.16b, v1.16b, v2.16b
	and	v0.16b, v0.16b, v2.16b
	addp	v0.16b, v1.16b, v0.16b
.LBB10_40:
	addp	v0.16b, v0.16b, v0.16b
	sub	x15, x16, x1
	add	x15, x15, #33
	addp	v0.16b, v0.16b, v0.16b
	fmov	w14, s0
	lsr	x17, x14, x15
	sub	x14, x1, #1
	mov	x15, x14
	cbnz	x17, .LBB10_42
	b	.LBB10_44
.LBB10_41:
	add	x15, x16, #32
.LBB10_42:
	rbit	x14, x17
	clz	x14, x14
	add	x18, x14, x16
	ldrb	w2, [x9, x18]
	cmp	w2, #10
	ccmp	w2, #13, #4, ne
	b.eq	.LBB10_49
	mov	w18, #1
	lsl	x14, x18, x14
	bics	x17, x17, x14
	b.ne	.LBB10_42
.LBB10_44:
	cmp	x15, x8
	mov	x18, x15
	b.lo	.LBB10_10
	b	.LBB10_8
.LBB10_45:
	umov	w16, v16.b[0]
	umov	w4, v7.b[0]
	umov	w2, v6.b[0]
	umov	w17, v5.b[0]
	umov	w3, v16.b[1]
	umov	w18, v7.b[1]
	umov	w15, v6.b[1]
	fmov	s17, w16
	umov	w16, v5.b[1]
	fmov	s18, w4
	fmov	s19, w2
	fmov	s20, w17
	umov	w17, v16.b[3]
	mov	v17.b[1], w3
	umov	w3, v16.b[2]
	mov	v18.b[1], w18
	umov	w18, v7.b[2]
	mov	v19.b[1], w15
	umov	w15, v6.b[2]
	mov	v20.b[1], w16
	umov	w16, v5.b[2]
	mov	v17.b[2], w3
	mov	v18.b[2], w18
	umov	w18, v7.b[3]
	mov	v19.b[2], w15
	umov	w15, v6.b[3]
	mov	v20.b[2], w16
	umov	w16, v5.b[3]
	mov	v17.b[3], w17
	umov	w17, v16.b[4]
	mov	v18.b[3], w18
	umov	w18, v7.b[4]
	mov	v19.b[3], w15
	umov	w15, v6.b[4]
	mov	v20.b[3], w16
	umov	w16, v5.b[4]
	mov	v17.b[4], w17
	umov	w17, v16.b[5]
	mov	v18.b[4], w18
	umov	w18, v7.b[5]
	mov	v19.b[4], w15
	umov	w15, v6.b[5]
	mov	v20.b[4], w16
	umov	w16, v5.b[5]
	mov	v17.b[5], w17
	umov	w17, v16.b[6]
	mov	v18.b[5], w18
	umov	w18, v7.b[6]
	mov	v19.b[5], w15
	umov	w15, v6.b[6]
	mov	v20.b[5], w16
	umov	w16, v5.b[6]
	mov	v17.b[6], w17
	umov	w17, v16.b[7]
	mov	v18.b[6], w18
	umov	w18, v7.b[7]
	mov	v19.b[6], w15
	umov	w15, v6.b[7]
	mov	v20.b[6], w16
	umov	w16, v5.b[7]
	mov	v17.b[7], w17
	umov	w17, v16.b[8]
	mov	v18.b[7], w18
	umov	w18, v7.b[8]
	mov	v19.b[7], w15
	umov	w15, v6.b[8]
	mov	v20.b[7], w16
	umov	w16, v5.b[8]
	mov	v17.b[8], w17
	umov	w17, v16.b[9]
	mov	v18.b[8], w18
	umov	w18, v7.b[9]
	mov	v19.b[8], w15
	umov	w15, v6.b[9]
	mov	v20.b[8], w16
	umov	w16, v5.b[9]
	mov	v17.b[9], w17
	umov	w17, v16.b[10]
	mov	v18.b[9], w18
	umov	w18, v7.b[10]
	mov	v19.b[9], w15
	umov	w15, v6.b[10]
	mov	v20.b[9], w16
	umov	w16, v5.b[10]
	mov	v17.b[10], w17
	umov	w17, v16.b[11]
	mov	v18.b[10], w18
	umov	w18, v7.b[11]
	mov	v19.b[10], w15
	umov	w15, v6.b[11]
	mov	v20.b[10], w16
	umov	w16, v5.b[11]
	mov	v17.b[11], w17
	umov	w17, v16.b[12]
	mov	v18.b[11], w18
	umov	w18, v7.b[12]
	mov	v19.b[11], w15
	umov	w15, v6.b[12]
	mov	v20.b[11], w16
	umov	w16, v5.b[12]
	mov	v17.b[12], w17
	umov	w17, v16.b[13]
	mov	v18.b[12], w18
	umov	w18, v7.b[13]
	mov	v19.b[12], w15
	umov	w15, v6.b[13]
	mov	v20.b[12], w16
	umov	w16, v5.b[13]
	mov	v17.b[13], w17
	umov	w17, v16.b[14]
	mov	v18.b[13], w18
	umov	w18, v7.b[14]
	mov	v19.b[13], w15
	umov	w15, v6.b[14]
	mov	v20.b[13], w16
	umov	w16, v5.b[14]
	mov	v17.b[14], w17
	umov	w17, v16.b[15]
	mov	v18.b[14], w18
	umov	w18, v7.b[15]
	mov	v19.b[14], w15
	umov	w15, v6.b[15]
	mov	v20.b[14], w16
	umov	w16, v5.b[15]
	mov	v17.b[15], w17
	mov	v18.b[15], w18
	mov	v19.b[15], w15
	sub	x15, x14, #64
	mov	v20.b[15], w16
	shl	v6.16b, v17.16b, #7
	shl	v5.16b, v18.16b, #7
	shl	v7.16b, v19.16b, #7
	shl	v16.16b, v20.16b, #7
	cmlt	v6.16b, v6.16b, #0
	cmlt	v5.16b, v5.16b, #0
	cmlt	v7.16b, v7.16b, #0
	cmlt	v16.16b, v16.16b, #0
	and	v6.16b, v6.16b, v0.16b
	and	v5.16b, v5.16b, v0.16b
	and	v7.16b, v7.16b, v0.16b
	and	v16.16b, v16.16b, v0.16b
	addp	v5.16b, v5.16b, v6.16b
	addp	v6.16b, v16.16b, v7.16b
	addp	v5.16b, v5.16b, v6.16b
	addp	v5.16b, v5.16b, v5.16b
	fmov	x17, d5
	cbz	x17, .LBB10_47
	sub	x16, x14, #128
	b	.LBB10_42
.LBB10_47:
	umov	w17, v1.b[0]
	umov	w5, v2.b[0]
	umov	w3, v3.b[0]
	umov	w18, v4.b[0]
	umov	w4, v1.b[1]
	umov	w2, v2.b[1]
	umov	w16, v3.b[1]
	fmov	s5, w17
	umov	w17, v4.b[1]
	fmov	s6, w5
	fmov	s7, w3
	fmov	s16, w18
	umov	w18, v1.b[3]
	mov	v5.b[1], w4
	umov	w4, v1.b[2]
	mov	v6.b[1], w2
	umov	w2, v2.b[2]
	mov	v7.b[1], w16
	umov	w16, v3.b[2]
	mov	v16.b[1], w17
	umov	w17, v4.b[2]
	mov	v5.b[2], w4
	mov	v6.b[2], w2
	umov	w2, v2.b[3]
	mov	v7.b[2], w16
	umov	w16, v3.b[3]
	mov	v16.b[2], w17
	umov	w17, v4.b[3]
	mov	v5.b[3], w18
	umov	w18, v1.b[4]
	mov	v6.b[3], w2
	umov	w2, v2.b[4]
	mov	v7.b[3], w16
	umov	w16, v3.b[4]
	mov	v16.b[3], w17
	umov	w17, v4.b[4]
	mov	v5.b[4], w18
	umov	w18, v1.b[5]
	mov	v6.b[4], w2
	umov	w2, v2.b[5]
	mov	v7.b[4], w16
	umov	w16, v3.b[5]
	mov	v16.b[4], w17
	umov	w17, v4.b[5]
	mov	v5.b[5], w18
	umov	w18, v1.b[6]
	mov	v6.b[5], w2
	umov	w2, v2.b[6]
	mov	v7.b[5], w16
	umov	w16, v3.b[6]
	mov	v16.b[5], w17
	umov	w17, v4.b[6]
	mov	v5.b[6], w18
	umov	w18, v1.b[7]
	mov	v6.b[6], w2
	umov	w2, v2.b[7]
	mov	v7.b[6], w16
	umov	w16, v3.b[7]
	mov	v16.b[6], w17
	umov	w17, v4.b[7]
	mov	v5.b[7], w18
	umov	w18, v1.b[8]
	mov	v6.b[7], w2
	umov	w2, v2.b[8]
	mov	v7.b[7], w16
	umov	w16, v3.b[8]
	mov	v16.b[7], w17
	umov	w17, v4.b[8]
	mov	v5.b[8], w18
	umov	w18, v1.b[9]
	mov	v6.b[8], w2
	umov	w2, v2.b[9]
	mov	v7.b[8], w16
	umov	w16, v3.b[9]
	mov	v16.b[8], w17
	umov	w17, v4.b[9]
	mov	v5.b[9], w18
	umov	w18, v1.b[10]
	mov	v6.b[9], w2
	umov	w2, v2.b[10]
	mov	v7.b[9], w16
	umov	w16, v3.b[10]
	mov	v16.b[9], w17
	umov	w17, v4.b[10]
	mov	v5.b[10], w18
	umov	w18, v1.b[11]
	mov	v6.b[10], w2
	umov	w2, v2.b[11]
	mov	v7.b[10], w16
	umov	w16, v3.b[11]
	mov	v16.b[10], w17
	umov	w17, v4.b[11]
	mov	v5.b[11], w18
	umov	w18, v1.b[12]
	mov	v6.b[11], w2
	umov	w2, v2.b[12]
	mov	v7.b[11], w16
	umov	w16, v3.b[12]
	mov	v16.b[11], w17
	umov	w17, v4.b[12]
	mov	v5.b[12], w18
	umov	w18, v1.b[13]
	mov	v6.b[12], w2
	umov	w2, v2.b[13]
	mov	v7.b[12], w16
	umov	w16, v3.b[13]
	mov	v16.b[12], w17
	umov	w17, v4.b[13]
	mov	v5.b[13], w18
	umov	w18, v1.b[14]
	mov	v6.b[13], w2
	umov	w2, v2.b[14]
	mov	v7.b[13], w16
	umov	w16, v3.b[14]
	mov	v16.b[13], w17
	umov	w17, v4.b[14]
	mov	v5.b[14], w18
	umov	w18, v1.b[15]
	mov	v6.b[14], w2
	umov	w2, v2.b[15]
	mov	v7.b[14], w16
	umov	w16, v3.b[15]
	mov	v16.b[14], w17
	umov	w17, v4.b[15]
	mov	v5.b[15], w18
	mov	v6.b[15], w2
	mov	v7.b[15], w16
	mov	v16.b[15], w17
	shl	v2.16b, v5.16b, #7
	shl	v1.16b, v6.16b, #7
	shl	v3.16b, v7.16b, #7
	shl	v4.16b, v16.16b, #7
	cmlt	v2.16b, v2.16b, #0
	cmlt	v1.16b, v1.16b, #0
	cmlt	v3.16b, v3.16b, #0
	cmlt	v4.16b, v4.16b, #0
	and	v2.16b, v2.16b, v0.16b
	and	v1.16b, v1.16b, v0.16b
	and	v4.16b, v4.16b, v0.16b
	and	v0.16b, v3.16b, v0.16b
	addp	v1.16b, v1.16b, v2.16b
	addp	v0.16b, v4.16b, v0.16b
	addp	v0.16b, v1.16b, v0.16b
	addp	v0.16b, v0.16b, v0.16b
	fmov	x17, d0
	mov	x16, x15
	mov	x15, x14
	cbnz	x17, .LBB10_42
	b	.LBB10_44
.LBB10_48:
	add	x15, x16, #64
	b	.LBB10_42
.LBB10_49:
	add	x0, x18, #1
	ret
.LBB10_50:
	add	x0, x10, #1
	ret
.Lfunc_end10:
	.size	"unftp_control_codecs::line_parser::value::fresh_len", .Lfunc_end10-"unftp_control_codecs::line_parser::value::fresh_len"

	.section	".text.unftp_control_codecs::line_parser::value::escaped_value","ax",@progbits
	.p2align	2
	.type	"unftp_control_codecs::line_parser::value::escaped_value",@function
"unftp_control_codecs::line_parser::value::escaped_value":
	stp	x29, x30, [sp, #-64]!
	stp	x24, x23, [sp, #16]
	mov	x24, xzr
	sub	x23, x2, x3
	stp	x22, x21, [sp, #32]
	mov	x21, x3
	add	x22, x1, x3
	stp	x20, x19, [sp, #48]
	mov	x20, x1
	mov	x19, x0
	mov	x29, sp
.LBB11_1:
	cmp	x23, #2
	b.lo	.LBB11_4
	ldrb	w8, [x22]
	cmp	w8, #13
	b.ne	.LBB11_4
	ldrb	w8, [x22, #1]
	cbz	w8, .LBB11_9
.LBB11_4:
	mov	x0, x22
	mov	x1, x23
	bl	"unftp_control_codecs::line_parser::value::fresh_len"
	subs	x8, x23, x0
	b.eq	.LBB11_27
	cmp	x8, #1
	add	x9, x22, x0
	b.eq	.LBB11_26
	ldrb	w10, [x9]
	cmp	w10, #13
	b.ne	.LBB11_24
	ldrb	w10, [x9, #1]
	cbnz	w10, .LBB11_24
	sub	x23, x8, #2
	add	x8, x0, #2
	add	x22, x9, #2
	add	x24, x8, x24
	b	.LBB11_1
.LBB11_9:
	mov	x8, xzr
	subs	x9, x23, #8
	b.hs	.LBB11_18
	mov	x9, x22
	mov	x11, x23
.LBB11_11:
	sub	x10, x11, #2
	mov	x12, xzr
	lsr	x10, x10, #1
	add	x11, x10, #1
.LBB11_12:
	ldrb	w10, [x9]
	cmp	w10, #13
	b.ne	.LBB11_16
	ldrb	w10, [x9, #1]
	cbnz	w10, .LBB11_16
	add	x12, x12, #1
	add	x9, x9, #2
	cmp	x11, x12
	b.ne	.LBB11_12
	mov	x10, x8
	mov	x12, x11
	b	.LBB11_17
.LBB11_16:
	mov	x10, x8
.LBB11_17:
	add	x8, x12, x10
	lsl	x8, x8, #1
	add	x22, x22, x8
	sub	x23, x23, x8
	add	x24, x8, x24
	b	.LBB11_1
.LBB11_18:
	lsr	x9, x9, #1
	mov	x11, x23
	and	x9, x9, #0x7ffffffffffffffc
	add	x10, x9, #4
	mov	x9, x22
.LBB11_19:
	ldr	x12, [x9]
	mov	x13, #3377751260921868
	orr	x13, x13, #0x1000100010001
	cmp	x12, x13
	b.ne	.LBB11_11
	sub	x11, x11, #8
	add	x9, x9, #8
	add	x8, x8, #4
	cmp	x11, #7
	b.hi	.LBB11_19
	cmp	x11, #2
	b.hs	.LBB11_23
	mov	x12, xzr
	b	.LBB11_17
.LBB11_23:
	mov	x8, x10
	b	.LBB11_11
.LBB11_24:
	cmp	w10, #10
	b.ne	.LBB11_27
.LBB11_25:
	mov	w8, #1
	dup	v0.2d, x8
	add	x8, x24, x21
	add	x8, x8, x0
	stp	x20, x8, [x19, #16]
	str	q0, [x19]
	ldp	x20, x19, [sp, #48]
	ldp	x22, x21, [sp, #32]
	ldp	x24, x23, [sp, #16]
	ldp	x29, x30, [sp], #64
	ret
.LBB11_26:
	ldrb	w8, [x9]
	cmp	w8, #10
	b.eq	.LBB11_25
.LBB11_27:
	movi	v0.2d, #0000000000000000
	stp	q0, q0, [x19]
	ldp	x20, x19, [sp, #48]
	ldp	x22, x21, [sp, #32]
	ldp	x24, x23, [sp, #16]
	ldp	x29, x30, [sp], #64
	ret
.Lfunc_end11:
	.size	"unftp_control_codecs::line_parser::value::escaped_value", .Lfunc_end11-"unftp_control_codecs::line_parser::value::escaped_value"

	.section	.rodata.cst16,"aM",@progbits,16
	.p2align	4, 0x0
.LCPI12_0:
	.byte	1
	.byte	2
	.byte	4
	.byte	8
	.byte	16
	.byte	32
	.byte	64
	.byte	128
	.byte	1
	.byte	2
	.byte	4
	.byte	8
	.byte	16
	.byte	32
	.byte	64
	.byte	128
.LCPI12_1:
	.byte	255
	.byte	255
	.byte	255
	.byte	255
	.byte	255
	.byte	255
	.byte	255
	.byte	255
	.byte	255
	.byte	255
	.byte	255
	.byte	255
	.byte	255
	.byte	239
	.byte	223
	.byte	191
	.section	".text.unftp_control_message::utf8::long_text","ax",@progbits
	.p2align	2
	.type	"unftp_control_message::utf8::long_text",@function
"unftp_control_message::utf8::long_text":
	sub	sp, sp, #416
	ldp	q0, q1, [x1]
	adrp	x8, .LCPI12_0
	ldr	q2, [x8, :lo12:.LCPI12_0]
	stp	x29, x30, [sp, #336]
	add	x29, sp, #336
	stp	x22, x21, [sp, #384]
	mov	x21, x1
	cmlt	v1.16b, v1.16b, #0
	cmlt	v0.16b, v0.16b, #0
	stp	x20, x19, [sp, #400]
	mov	x20, x2
	mov	x19, x0
	stp	d15, d14, [sp, #272]
	stp	d13, d12, [sp, #288]
	and	v0.16b, v0.16b, v2.16b
	and	v1.16b, v1.16b, v2.16b
	stp	d11, d10, [sp, #304]
	stp	d9, d8, [sp, #320]
	stp	x28, x25, [sp, #352]
	addp	v0.16b, v0.16b, v1.16b
	stp	x24, x23, [sp, #368]
	stp	xzr, xzr, [x29, #-152]
	stur	xzr, [x29, #-136]
	addp	v0.16b, v0.16b, v0.16b
	addp	v0.16b, v0.16b, v0.16b
	fmov	w8, s0
	cbz	w8, .LBB12_3
	sub	x0, x29, #128
	mov	x1, x21
	mov	w2, #32
	stp	xzr, xzr, [x29, #-128]
	stur	xzr, [x29, #-112]
	str	q2, [sp, #96]
	bl	"core::str::utf8::from_utf8"
	ldr	q20, [sp, #96]
	ldurb	w8, [x29, #-128]
	cbz	w8, .LBB12_4
	ldurb	w8, [x29, #-112]
	cmp	w8, #1
	b.ne	.LBB12_4
.LBB12_3:
	sub	x0, x29, #152
	mov	x1, x21
	mov	x2, x20
	bl	"core::str::utf8::from_utf8"
	ldurb	w8, [x29, #-152]
	ldur	q1, [x29, #-144]
	cmp	w8, #0
	cset	w8, eq
	dup	v0.2s, w8
	str	x8, [x19]
	ushll	v0.2d, v0.2s, #0
	shl	v0.2d, v0.2d, #63
	cmlt	v0.2d, v0.2d, #0
	and	v0.16b, v0.16b, v1.16b
	stur	q0, [x19, #8]
	b	.LBB12_41
.LBB12_4:
	and	x8, x20, #0xffffffffffffffc0
	mov	x1, x21
	mov	x2, x20
.LBB12_5:
	ldp	q0, q1, [x1]
	adrp	x23, .LCPI12_1
	ldp	q2, q3, [x1, #32]
	cmlt	v0.16b, v0.16b, #0
	cmlt	v1.16b, v1.16b, #0
	cmlt	v3.16b, v3.16b, #0
	cmlt	v2.16b, v2.16b, #0
	and	v0.16b, v0.16b, v20.16b
	and	v1.16b, v1.16b, v20.16b
	and	v2.16b, v2.16b, v20.16b
	and	v3.16b, v3.16b, v20.16b
	addp	v0.16b, v0.16b, v1.16b
	addp	v1.16b, v2.16b, v3.16b
	addp	v0.16b, v0.16b, v1.16b
	addp	v0.16b, v0.16b, v0.16b
	fmov	x9, d0
	cbnz	x9, .LBB12_8
	sub	x2, x2, #64
	add	x1, x1, #64
	cmp	x2, #63
	b.hi	.LBB12_5
	movi	v0.2d, #0000000000000000
	mov	x3, xzr
	add	x1, x21, x8
	stp	q0, q0, [sp, #32]
	stp	q0, q0, [sp, #64]
	stp	q0, q0, [sp, #128]
	str	q0, [sp, #112]
	str	q0, [sp, #16]
	str	q0, [sp, #160]
	b	.LBB12_14
.LBB12_8:
	movi	v0.2d, #0000000000000000
	movi	v23.2d, #0000000000000000
	mov	x8, x1
	movi	v24.2d, #0000000000000000
	movi	v22.2d, #0000000000000000
	mov	x9, x2
	movi	v25.2d, #0000000000000000
	movi	v16.2d, #0000000000000000
	movi	v17.2d, #0000000000000000
	movi	v18.2d, #0000000000000000
	movi	v19.2d, #0000000000000000
	b	.LBB12_11
.LBB12_9:
	movi	v5.16b, #192
	ext	v7.16b, v26.16b, v21.16b, #15
	str	q19, [sp, #80]
	ext	v19.16b, v1.16b, v2.16b, #15
	movi	v3.16b, #128
	stp	q18, q17, [sp, #112]
	movi	v6.16b, #191
	ext	v18.16b, v2.16b, v26.16b, #15
	stp	q16, q21, [sp, #144]
	movi	v4.16b, #240
	movi	v12.16b, #224
	ext	v20.16b, v0.16b, v1.16b, #15
	cmgt	v17.16b, v5.16b, v21.16b
	cmgt	v16.16b, v5.16b, v1.16b
	cmgt	v24.16b, v5.16b, v26.16b
	cmgt	v27.16b, v5.16b, v7.16b
	cmgt	v29.16b, v5.16b, v2.16b
	cmgt	v30.16b, v5.16b, v19.16b
	cmhi	v31.16b, v19.16b, v6.16b
	cmhi	v10.16b, v7.16b, v6.16b
	cmhi	v8.16b, v18.16b, v6.16b
	and	v22.16b, v17.16b, v3.16b
	and	v21.16b, v16.16b, v3.16b
	and	v9.16b, v24.16b, v3.16b
	and	v11.16b, v29.16b, v3.16b
	cmgt	v28.16b, v5.16b, v18.16b
	cmhi	v6.16b, v20.16b, v6.16b
	eor	v29.16b, v29.16b, v31.16b
	eor	v17.16b, v17.16b, v10.16b
	eor	v8.16b, v24.16b, v8.16b
	and	v3.16b, v22.16b, v27.16b
	movi	v31.16b, #160
	cmeq	v10.16b, v20.16b, v12.16b
	and	v24.16b, v11.16b, v30.16b
	movi	v11.16b, #144
	and	v22.16b, v9.16b, v28.16b
	uqsub	v17.16b, v17.16b, v27.16b
	cmeq	v27.16b, v7.16b, v12.16b
	movi	v14.16b, #237
	str	q3, [sp, #32]
	uqsub	v3.16b, v29.16b, v30.16b
	cmeq	v29.16b, v7.16b, v4.16b
	movi	v30.16b, #244
	cmgt	v25.16b, v5.16b, v20.16b
	eor	v9.16b, v16.16b, v6.16b
	and	v27.16b, v27.16b, v31.16b
	and	v10.16b, v10.16b, v31.16b
	cmeq	v13.16b, v19.16b, v4.16b
	and	v29.16b, v29.16b, v11.16b
	mov	v16.16b, v0.16b
	str	q3, [sp, #64]
	uqsub	v3.16b, v8.16b, v28.16b
	cmeq	v28.16b, v20.16b, v4.16b
	cmeq	v8.16b, v18.16b, v12.16b
	cmeq	v12.16b, v19.16b, v12.16b
	and	v21.16b, v21.16b, v25.16b
	orr	v6.16b, v27.16b, v29.16b
	mov	v27.16b, v2.16b
	mov	v2.16b, v1.16b
	and	v28.16b, v28.16b, v11.16b
	movi	v1.16b, #128
	uqsub	v25.16b, v9.16b, v25.16b
	str	q3, [sp, #48]
	and	v9.16b, v12.16b, v31.16b
	and	v31.16b, v8.16b, v31.16b
	cmeq	v8.16b, v18.16b, v4.16b
	and	v12.16b, v13.16b, v11.16b
	cmeq	v29.16b, v20.16b, v14.16b
	orr	v28.16b, v10.16b, v28.16b
	cmeq	v10.16b, v7.16b, v14.16b
	cmeq	v13.16b, v18.16b, v14.16b
	cmeq	v14.16b, v19.16b, v14.16b
	cmeq	v15.16b, v20.16b, v30.16b
	cmeq	v3.16b, v7.16b, v30.16b
	and	v8.16b, v8.16b, v11.16b
	orn	v29.16b, v11.16b, v29.16b
	cmeq	v23.16b, v18.16b, v30.16b
	orn	v10.16b, v11.16b, v10.16b
	orn	v13.16b, v11.16b, v13.16b
	cmeq	v0.16b, v19.16b, v30.16b
	orn	v11.16b, v11.16b, v14.16b
	orn	v14.16b, v1.16b, v15.16b
	movi	v15.16b, #254
	orn	v3.16b, v1.16b, v3.16b
	orr	v9.16b, v9.16b, v12.16b
	and	v12.16b, v2.16b, v4.16b
	orr	v31.16b, v31.16b, v8.16b
	ldr	q8, [sp, #160]
	orn	v23.16b, v1.16b, v23.16b
	and	v29.16b, v29.16b, v14.16b
	orn	v0.16b, v1.16b, v0.16b
	movi	v14.16b, #1
	and	v8.16b, v8.16b, v4.16b
	and	v3.16b, v10.16b, v3.16b
	uqsub	v1.16b, v28.16b, v12.16b
	and	v23.16b, v13.16b, v23.16b
	and	v10.16b, v26.16b, v4.16b
	and	v13.16b, v7.16b, v15.16b
	uqsub	v29.16b, v12.16b, v29.16b
	and	v12.16b, v20.16b, v15.16b
	uqsub	v20.16b, v20.16b, v30.16b
	and	v11.16b, v11.16b, v0.16b
	uqsub	v0.16b, v6.16b, v8.16b
	ldr	q6, [sp, #32]
	uqsub	v28.16b, v8.16b, v3.16b
	and	v3.16b, v18.16b, v15.16b
	and	v8.16b, v19.16b, v15.16b
	uqsub	v15.16b, v18.16b, v30.16b
	cmeq	v12.16b, v12.16b, v5.16b
	uqsub	v19.16b, v19.16b, v30.16b
	uqsub	v30.16b, v7.16b, v30.16b
	and	v4.16b, v27.16b, v4.16b
	cmeq	v13.16b, v13.16b, v5.16b
	cmeq	v8.16b, v8.16b, v5.16b
	cmeq	v3.16b, v3.16b, v5.16b
	uqsub	v7.16b, v10.16b, v23.16b
	and	v23.16b, v12.16b, v14.16b
	orr	v20.16b, v20.16b, v21.16b
	uqsub	v5.16b, v31.16b, v10.16b
	ldr	q10, [sp, #160]
	orr	v22.16b, v15.16b, v22.16b
	ldr	q15, [sp, #160]
	uqsub	v18.16b, v9.16b, v4.16b
	uqsub	v4.16b, v4.16b, v11.16b
	and	v21.16b, v8.16b, v14.16b
	and	v3.16b, v3.16b, v14.16b
	and	v31.16b, v13.16b, v14.16b
	orr	v19.16b, v19.16b, v24.16b
	orr	v24.16b, v30.16b, v6.16b
	ldr	q6, [sp, #48]
	orr	v20.16b, v20.16b, v23.16b
	ext	v23.16b, v2.16b, v27.16b, #14
	movi	v30.16b, #96
	ext	v8.16b, v2.16b, v27.16b, #13
	movi	v9.16b, #112
	ext	v10.16b, v26.16b, v10.16b, #14
	ext	v11.16b, v16.16b, v2.16b, #14
	ext	v12.16b, v16.16b, v2.16b, #13
	ext	v13.16b, v27.16b, v26.16b, #14
	ext	v14.16b, v27.16b, v26.16b, #13
	ext	v15.16b, v26.16b, v15.16b, #13
	orr	v3.16b, v22.16b, v3.16b
	orr	v19.16b, v19.16b, v21.16b
	orr	v21.16b, v24.16b, v31.16b
	orr	v20.16b, v20.16b, v25.16b
	uqsub	v22.16b, v23.16b, v30.16b
	uqsub	v23.16b, v8.16b, v9.16b
	uqsub	v24.16b, v11.16b, v30.16b
	uqsub	v25.16b, v10.16b, v30.16b
	uqsub	v31.16b, v12.16b, v9.16b
	uqsub	v30.16b, v13.16b, v30.16b
	orr	v3.16b, v3.16b, v6.16b
	ldr	q6, [sp, #64]
	uqsub	v8.16b, v15.16b, v9.16b
	uqsub	v9.16b, v14.16b, v9.16b
	orr	v16.16b, v29.16b, v1.16b
	movi	v1.16b, #128
	orr	v17.16b, v21.16b, v17.16b
	orr	v6.16b, v19.16b, v6.16b
	orr	v4.16b, v4.16b, v18.16b
	orr	v18.16b, v22.16b, v23.16b
	orr	v0.16b, v28.16b, v0.16b
	orr	v5.16b, v7.16b, v5.16b
	orr	v7.16b, v24.16b, v31.16b
	orr	v19.16b, v30.16b, v9.16b
	orr	v21.16b, v25.16b, v8.16b
	movi	v22.2d, #0xffffffffffffffff
	orr	v16.16b, v20.16b, v16.16b
	orr	v4.16b, v6.16b, v4.16b
	and	v6.16b, v18.16b, v1.16b
	orr	v17.16b, v17.16b, v0.16b
	orr	v0.16b, v3.16b, v5.16b
	and	v5.16b, v7.16b, v1.16b
	and	v7.16b, v21.16b, v1.16b
	and	v18.16b, v19.16b, v1.16b
	ldr	q19, [x23, :lo12:.LCPI12_1]
	uqsub	v23.16b, v2.16b, v22.16b
	uqsub	v24.16b, v27.16b, v22.16b
	uqsub	v22.16b, v26.16b, v22.16b
	eor	v3.16b, v4.16b, v6.16b
	eor	v2.16b, v16.16b, v5.16b
	ldp	q16, q21, [sp, #144]
	uqsub	v25.16b, v21.16b, v19.16b
	eor	v0.16b, v0.16b, v18.16b
	ldp	q19, q20, [sp, #80]
	eor	v1.16b, v17.16b, v7.16b
	ldp	q18, q17, [sp, #112]
.LBB12_10:
	orr	v16.16b, v2.16b, v16.16b
	orr	v17.16b, v3.16b, v17.16b
	sub	x9, x9, #64
	orr	v18.16b, v0.16b, v18.16b
	orr	v19.16b, v1.16b, v19.16b
	cmp	x9, #63
	mov	v0.16b, v21.16b
	add	x8, x8, #64
	b.ls	.LBB12_13
.LBB12_11:
	ldp	q1, q2, [x8]
	ldp	q26, q21, [x8, #32]
	cmlt	v4.16b, v1.16b, #0
	cmlt	v7.16b, v2.16b, #0
	cmlt	v5.16b, v21.16b, #0
	cmlt	v6.16b, v26.16b, #0
	and	v4.16b, v4.16b, v20.16b
	and	v7.16b, v7.16b, v20.16b
	and	v6.16b, v6.16b, v20.16b
	and	v5.16b, v5.16b, v20.16b
	addp	v4.16b, v4.16b, v7.16b
	addp	v5.16b, v6.16b, v5.16b
	addp	v4.16b, v4.16b, v5.16b
	addp	v4.16b, v4.16b, v4.16b
	fmov	x10, d4
	cbnz	x10, .LBB12_9
	mov	v2.16b, v23.16b
	mov	v3.16b, v24.16b
	mov	v0.16b, v22.16b
	mov	v1.16b, v25.16b
	movi	v23.2d, #0000000000000000
	movi	v24.2d, #0000000000000000
	movi	v22.2d, #0000000000000000
	movi	v25.2d, #0000000000000000
	b	.LBB12_10
.LBB12_13:
	and	x3, x2, #0xffffffffffffffc0
	stp	q25, q22, [sp, #16]
	stp	q24, q23, [sp, #48]
	stp	q16, q21, [sp, #144]
	str	q19, [sp, #80]
	stp	q18, q17, [sp, #112]
.LBB12_14:
	sub	x0, x29, #128
	bl	"simdutf8::last_block"
	ldp	q1, q16, [x29, #-128]
	ldr	q20, [sp, #96]
	ldp	q3, q0, [x29, #-96]
	cmlt	v4.16b, v1.16b, #0
	cmlt	v7.16b, v16.16b, #0
	cmlt	v5.16b, v0.16b, #0
	cmlt	v6.16b, v3.16b, #0
	and	v4.16b, v4.16b, v20.16b
	and	v7.16b, v7.16b, v20.16b
	and	v6.16b, v6.16b, v20.16b
	and	v5.16b, v5.16b, v20.16b
	addp	v4.16b, v4.16b, v7.16b
	addp	v5.16b, v6.16b, v5.16b
	addp	v4.16b, v4.16b, v5.16b
	ldp	q5, q17, [sp, #16]
	addp	v4.16b, v4.16b, v4.16b
	fmov	x8, d4
	ldp	q4, q2, [sp, #48]
	cbz	x8, .LBB12_16
	movi	v6.16b, #192
	ldr	q2, [sp, #160]
	mov	v4.16b, v16.16b
	ext	v17.16b, v3.16b, v0.16b, #15
	ext	v20.16b, v1.16b, v16.16b, #15
	str	q16, [sp]
	ext	v2.16b, v2.16b, v1.16b, #15
	ext	v7.16b, v16.16b, v3.16b, #15
	str	q0, [sp, #32]
	movi	v5.16b, #128
	movi	v16.16b, #191
	movi	v12.16b, #224
	cmgt	v19.16b, v6.16b, v1.16b
	cmgt	v22.16b, v6.16b, v3.16b
	cmgt	v27.16b, v6.16b, v4.16b
	cmgt	v18.16b, v6.16b, v0.16b
	movi	v4.16b, #240
	cmgt	v30.16b, v6.16b, v20.16b
	cmgt	v28.16b, v6.16b, v2.16b
	cmgt	v29.16b, v6.16b, v7.16b
	movi	v14.16b, #237
	and	v24.16b, v19.16b, v5.16b
	and	v26.16b, v22.16b, v5.16b
	and	v31.16b, v27.16b, v5.16b
	cmhi	v9.16b, v7.16b, v16.16b
	cmhi	v10.16b, v17.16b, v16.16b
	cmhi	v8.16b, v20.16b, v16.16b
	cmhi	v11.16b, v2.16b, v16.16b
	and	v21.16b, v18.16b, v5.16b
	cmeq	v13.16b, v17.16b, v4.16b
	and	v5.16b, v24.16b, v28.16b
	and	v24.16b, v26.16b, v29.16b
	and	v26.16b, v31.16b, v30.16b
	eor	v31.16b, v18.16b, v10.16b
	eor	v22.16b, v22.16b, v9.16b
	movi	v9.16b, #160
	movi	v10.16b, #144
	eor	v18.16b, v27.16b, v8.16b
	eor	v8.16b, v19.16b, v11.16b
	str	q5, [sp, #64]
	cmeq	v11.16b, v17.16b, v12.16b
	movi	v27.16b, #244
	uqsub	v19.16b, v22.16b, v29.16b
	cmgt	v0.16b, v6.16b, v17.16b
	cmeq	v29.16b, v2.16b, v12.16b
	uqsub	v5.16b, v18.16b, v30.16b
	uqsub	v22.16b, v8.16b, v28.16b
	cmeq	v30.16b, v7.16b, v12.16b
	and	v28.16b, v11.16b, v9.16b
	and	v8.16b, v13.16b, v10.16b
	cmeq	v12.16b, v20.16b, v12.16b
	movi	v16.16b, #128
	cmeq	v11.16b, v17.16b, v14.16b
	cmeq	v23.16b, v2.16b, v27.16b
	cmeq	v25.16b, v7.16b, v27.16b
	and	v21.16b, v21.16b, v0.16b
	uqsub	v18.16b, v31.16b, v0.16b
	str	q5, [sp, #48]
	orr	v28.16b, v28.16b, v8.16b
	cmeq	v8.16b, v17.16b, v27.16b
	mov	v5.16b, v1.16b
	cmeq	v1.16b, v20.16b, v27.16b
	cmeq	v31.16b, v20.16b, v4.16b
	and	v12.16b, v12.16b, v9.16b
	and	v30.16b, v30.16b, v9.16b
	and	v29.16b, v29.16b, v9.16b
	cmeq	v9.16b, v2.16b, v4.16b
	cmeq	v13.16b, v7.16b, v4.16b
	cmeq	v15.16b, v2.16b, v14.16b
	cmeq	v0.16b, v7.16b, v14.16b
	cmeq	v14.16b, v20.16b, v14.16b
	orn	v11.16b, v10.16b, v11.16b
	orn	v8.16b, v16.16b, v8.16b
	orn	v23.16b, v16.16b, v23.16b
	orn	v1.16b, v16.16b, v1.16b
	orn	v25.16b, v16.16b, v25.16b
	ldr	q16, [sp, #32]
	and	v31.16b, v31.16b, v10.16b
	and	v13.16b, v13.16b, v10.16b
	and	v9.16b, v9.16b, v10.16b
	orn	v15.16b, v10.16b, v15.16b
	orn	v0.16b, v10.16b, v0.16b
	orn	v10.16b, v10.16b, v14.16b
	movi	v14.16b, #254
	and	v8.16b, v11.16b, v8.16b
	and	v11.16b, v16.16b, v4.16b
	orr	v12.16b, v12.16b, v31.16b
	orr	v29.16b, v29.16b, v9.16b
	orr	v9.16b, v30.16b, v13.16b
	and	v13.16b, v5.16b, v4.16b
	and	v23.16b, v15.16b, v23.16b
	ldr	q15, [sp]
	and	v1.16b, v10.16b, v1.16b
	uqsub	v31.16b, v11.16b, v8.16b
	and	v8.16b, v20.16b, v14.16b
	and	v0.16b, v0.16b, v25.16b
	uqsub	v30.16b, v28.16b, v11.16b
	and	v25.16b, v3.16b, v4.16b
	uqsub	v28.16b, v29.16b, v13.16b
	uqsub	v29.16b, v13.16b, v23.16b
	uqsub	v23.16b, v20.16b, v27.16b
	and	v10.16b, v7.16b, v14.16b
	and	v11.16b, v17.16b, v14.16b
	and	v13.16b, v2.16b, v14.16b
	movi	v14.16b, #1
	and	v4.16b, v15.16b, v4.16b
	cmeq	v8.16b, v8.16b, v6.16b
	uqsub	v17.16b, v17.16b, v27.16b
	uqsub	v20.16b, v9.16b, v25.16b
	uqsub	v0.16b, v25.16b, v0.16b
	cmeq	v25.16b, v10.16b, v6.16b
	cmeq	v10.16b, v11.16b, v6.16b
	uqsub	v11.16b, v7.16b, v27.16b
	orr	v23.16b, v23.16b, v26.16b
	and	v26.16b, v8.16b, v14.16b
	uqsub	v7.16b, v4.16b, v1.16b
	uqsub	v1.16b, v2.16b, v27.16b
	ldr	q2, [sp, #64]
	cmeq	v9.16b, v13.16b, v6.16b
	uqsub	v6.16b, v12.16b, v4.16b
	and	v4.16b, v25.16b, v14.16b
	and	v25.16b, v10.16b, v14.16b
	ldr	q10, [sp, #160]
	orr	v17.16b, v17.16b, v21.16b
	orr	v21.16b, v23.16b, v26.16b
	orr	v23.16b, v11.16b, v24.16b
	ext	v24.16b, v3.16b, v16.16b, #14
	movi	v26.16b, #96
	ext	v27.16b, v3.16b, v16.16b, #13
	movi	v8.16b, #112
	and	v12.16b, v9.16b, v14.16b
	orr	v1.16b, v1.16b, v2.16b
	orr	v17.16b, v17.16b, v25.16b
	ext	v25.16b, v15.16b, v3.16b, #14
	ext	v9.16b, v5.16b, v15.16b, #14
	ext	v3.16b, v15.16b, v3.16b, #13
	ext	v2.16b, v5.16b, v15.16b, #13
	orr	v4.16b, v23.16b, v4.16b
	ext	v23.16b, v10.16b, v5.16b, #14
	ext	v10.16b, v10.16b, v5.16b, #13
	orr	v1.16b, v1.16b, v12.16b
	uqsub	v5.16b, v24.16b, v26.16b
	uqsub	v24.16b, v27.16b, v8.16b
	mov	v11.16b, v16.16b
	orr	v16.16b, v17.16b, v18.16b
	ldr	q18, [sp, #48]
	uqsub	v25.16b, v25.16b, v26.16b
	uqsub	v27.16b, v9.16b, v26.16b
	uqsub	v3.16b, v3.16b, v8.16b
	uqsub	v2.16b, v2.16b, v8.16b
	orr	v1.16b, v1.16b, v22.16b
	uqsub	v22.16b, v23.16b, v26.16b
	uqsub	v23.16b, v10.16b, v8.16b
	orr	v18.16b, v21.16b, v18.16b
	movi	v21.16b, #128
	orr	v17.16b, v31.16b, v30.16b
	orr	v5.16b, v5.16b, v24.16b
	orr	v4.16b, v4.16b, v19.16b
	ldr	q19, [x23, :lo12:.LCPI12_1]
	orr	v0.16b, v0.16b, v20.16b
	ldr	q20, [sp, #96]
	orr	v6.16b, v7.16b, v6.16b
	orr	v16.16b, v16.16b, v17.16b
	orr	v17.16b, v29.16b, v28.16b
	orr	v2.16b, v27.16b, v2.16b
	orr	v3.16b, v25.16b, v3.16b
	orr	v7.16b, v22.16b, v23.16b
	and	v5.16b, v5.16b, v21.16b
	orr	v0.16b, v4.16b, v0.16b
	orr	v4.16b, v18.16b, v6.16b
	uqsub	v6.16b, v11.16b, v19.16b
	orr	v1.16b, v1.16b, v17.16b
	and	v2.16b, v2.16b, v21.16b
	and	v7.16b, v7.16b, v21.16b
	and	v3.16b, v3.16b, v21.16b
	eor	v5.16b, v16.16b, v5.16b
	eor	v4.16b, v4.16b, v2.16b
	eor	v17.16b, v0.16b, v3.16b
	eor	v2.16b, v1.16b, v7.16b
	orr	v5.16b, v5.16b, v6.16b
.LBB12_16:
	ldp	q1, q0, [sp, #128]
	ldr	q3, [sp, #80]
	orr	v3.16b, v5.16b, v3.16b
	orr	v0.16b, v2.16b, v0.16b
	ldr	q2, [sp, #112]
	orr	v1.16b, v4.16b, v1.16b
	orr	v2.16b, v17.16b, v2.16b
	cmeq	v3.16b, v3.16b, #0
	cmeq	v0.16b, v0.16b, #0
	cmeq	v1.16b, v1.16b, #0
	cmeq	v2.16b, v2.16b, #0
	bic	v3.16b, v20.16b, v3.16b
	bic	v0.16b, v20.16b, v0.16b
	bic	v1.16b, v20.16b, v1.16b
	bic	v2.16b, v20.16b, v2.16b
	addp	v0.16b, v0.16b, v1.16b
	addp	v1.16b, v2.16b, v3.16b
	addp	v0.16b, v0.16b, v1.16b
	addp	v0.16b, v0.16b, v0.16b
	fmov	x8, d0
	cbz	x8, .LBB12_39
	mov	x25, xzr
	b	.LBB12_19
.LBB12_18:
	ldp	q1, q0, [sp, #144]
	orr	v0.16b, v2.16b, v0.16b
	ldp	q3, q2, [sp, #112]
	orr	v1.16b, v4.16b, v1.16b
	orr	v2.16b, v17.16b, v2.16b
	orr	v3.16b, v5.16b, v3.16b
	cmeq	v0.16b, v0.16b, #0
	cmeq	v1.16b, v1.16b, #0
	cmeq	v3.16b, v3.16b, #0
	cmeq	v2.16b, v2.16b, #0
	bic	v0.16b, v20.16b, v0.16b
	bic	v1.16b, v20.16b, v1.16b
	bic	v2.16b, v20.16b, v2.16b
	bic	v3.16b, v20.16b, v3.16b
	addp	v0.16b, v0.16b, v1.16b
	addp	v1.16b, v2.16b, v3.16b
	addp	v0.16b, v0.16b, v1.16b
	addp	v0.16b, v0.16b, v0.16b
	fmov	x8, d0
	cbnz	x8, .LBB12_37
.LBB12_19:
	sub	x22, x20, x25
	mov	x24, x25
	cmp	x22, #1025
	b.lo	.LBB12_37
	add	x8, x24, #1024
	mov	x10, xzr
	ldrsb	w9, [x21, x8]
	cmn	w9, #64
	cset	w9, lt
	csetm	x11, lt
	sub	x8, x8, x9
	ldrsb	w9, [x21, x8]
	cmn	w9, #64
	cset	w9, lt
	csetm	x12, lt
	sub	x8, x8, x9
	ldrsb	w9, [x21, x8]
	cmn	w9, #64
	cset	w9, lt
	csetm	x13, lt
	sub	x25, x8, x9
	add	x9, x21, x24
	sub	x8, x25, x24
	cmp	x8, #64
	b.lo	.LBB12_25
	add	x11, x11, x12
	add	x1, x21, x24
	add	x11, x11, x13
	add	x11, x11, #960
.LBB12_22:
	ldp	q0, q1, [x1]
	ldp	q2, q3, [x1, #32]
	cmlt	v0.16b, v0.16b, #0
	cmlt	v1.16b, v1.16b, #0
	cmlt	v3.16b, v3.16b, #0
	cmlt	v2.16b, v2.16b, #0
	and	v0.16b, v0.16b, v20.16b
	and	v1.16b, v1.16b, v20.16b
	and	v2.16b, v2.16b, v20.16b
	and	v3.16b, v3.16b, v20.16b
	addp	v0.16b, v0.16b, v1.16b
	addp	v1.16b, v2.16b, v3.16b
	addp	v0.16b, v0.16b, v1.16b
	addp	v0.16b, v0.16b, v0.16b
	fmov	x12, d0
	cbnz	x12, .LBB12_29
	sub	x12, x11, #64
	add	x10, x10, #64
	cmp	x11, #63
	add	x1, x1, #64
	sub	x8, x8, #64
	mov	x11, x12
	b.hi	.LBB12_22
	add	x8, x12, #64
.LBB12_25:
	movi	v0.2d, #0000000000000000
	mov	x3, xzr
	add	x1, x9, x10
	mov	x2, x8
.LBB12_26:
	stp	q0, q0, [sp, #16]
	stp	q0, q0, [sp, #48]
	stp	q0, q0, [sp, #112]
	stp	q0, q0, [sp, #144]
	str	q0, [sp, #80]
.LBB12_27:
	sub	x0, x29, #128
	bl	"simdutf8::last_block"
	ldp	q1, q16, [x29, #-128]
	ldr	q20, [sp, #96]
	ldp	q3, q0, [x29, #-96]
	cmlt	v4.16b, v1.16b, #0
	cmlt	v7.16b, v16.16b, #0
	cmlt	v5.16b, v0.16b, #0
	cmlt	v6.16b, v3.16b, #0
	and	v4.16b, v4.16b, v20.16b
	and	v7.16b, v7.16b, v20.16b
	and	v6.16b, v6.16b, v20.16b
	and	v5.16b, v5.16b, v20.16b
	addp	v4.16b, v4.16b, v7.16b
	addp	v5.16b, v6.16b, v5.16b
	addp	v4.16b, v4.16b, v5.16b
	ldp	q5, q17, [sp, #16]
	addp	v4.16b, v4.16b, v4.16b
	fmov	x8, d4
	ldp	q4, q2, [sp, #48]
	cbz	x8, .LBB12_18
	movi	v6.16b, #192
	ldr	q2, [sp, #80]
	mov	v4.16b, v16.16b
	ext	v17.16b, v3.16b, v0.16b, #15
	ext	v20.16b, v1.16b, v16.16b, #15
	str	q16, [sp]
	ext	v2.16b, v2.16b, v1.16b, #15
	ext	v7.16b, v16.16b, v3.16b, #15
	str	q0, [sp, #32]
	movi	v5.16b, #128
	movi	v16.16b, #191
	movi	v12.16b, #224
	cmgt	v19.16b, v6.16b, v1.16b
	cmgt	v22.16b, v6.16b, v3.16b
	cmgt	v27.16b, v6.16b, v4.16b
	cmgt	v18.16b, v6.16b, v0.16b
	movi	v4.16b, #240
	cmgt	v30.16b, v6.16b, v20.16b
	cmgt	v28.16b, v6.16b, v2.16b
	cmgt	v29.16b, v6.16b, v7.16b
	movi	v14.16b, #237
	and	v24.16b, v19.16b, v5.16b
	and	v26.16b, v22.16b, v5.16b
	and	v31.16b, v27.16b, v5.16b
	cmhi	v9.16b, v7.16b, v16.16b
	cmhi	v10.16b, v17.16b, v16.16b
	cmhi	v8.16b, v20.16b, v16.16b
	cmhi	v11.16b, v2.16b, v16.16b
	and	v21.16b, v18.16b, v5.16b
	cmeq	v13.16b, v17.16b, v4.16b
	and	v5.16b, v24.16b, v28.16b
	and	v24.16b, v26.16b, v29.16b
	and	v26.16b, v31.16b, v30.16b
	eor	v31.16b, v18.16b, v10.16b
	eor	v22.16b, v22.16b, v9.16b
	movi	v9.16b, #160
	movi	v10.16b, #144
	eor	v18.16b, v27.16b, v8.16b
	eor	v8.16b, v19.16b, v11.16b
	str	q5, [sp, #64]
	cmeq	v11.16b, v17.16b, v12.16b
	movi	v27.16b, #244
	uqsub	v19.16b, v22.16b, v29.16b
	cmgt	v0.16b, v6.16b, v17.16b
	cmeq	v29.16b, v2.16b, v12.16b
	uqsub	v5.16b, v18.16b, v30.16b
	uqsub	v22.16b, v8.16b, v28.16b
	cmeq	v30.16b, v7.16b, v12.16b
	and	v28.16b, v11.16b, v9.16b
	and	v8.16b, v13.16b, v10.16b
	cmeq	v12.16b, v20.16b, v12.16b
	movi	v16.16b, #128
	cmeq	v11.16b, v17.16b, v14.16b
	cmeq	v23.16b, v2.16b, v27.16b
	cmeq	v25.16b, v7.16b, v27.16b
	and	v21.16b, v21.16b, v0.16b
	uqsub	v18.16b, v31.16b, v0.16b
	str	q5, [sp, #48]
	orr	v28.16b, v28.16b, v8.16b
	cmeq	v8.16b, v17.16b, v27.16b
	mov	v5.16b, v1.16b
	cmeq	v1.16b, v20.16b, v27.16b
	cmeq	v31.16b, v20.16b, v4.16b
	and	v12.16b, v12.16b, v9.16b
	and	v30.16b, v30.16b, v9.16b
	and	v29.16b, v29.16b, v9.16b
	cmeq	v9.16b, v2.16b, v4.16b
	cmeq	v13.16b, v7.16b, v4.16b
	cmeq	v15.16b, v2.16b, v14.16b
	cmeq	v0.16b, v7.16b, v14.16b
	cmeq	v14.16b, v20.16b, v14.16b
	orn	v11.16b, v10.16b, v11.16b
	orn	v8.16b, v16.16b, v8.16b
	orn	v23.16b, v16.16b, v23.16b
	orn	v1.16b, v16.16b, v1.16b
	orn	v25.16b, v16.16b, v25.16b
	ldr	q16, [sp, #32]
	and	v31.16b, v31.16b, v10.16b
	and	v13.16b, v13.16b, v10.16b
	and	v9.16b, v9.16b, v10.16b
	orn	v15.16b, v10.16b, v15.16b
	orn	v0.16b, v10.16b, v0.16b
	orn	v10.16b, v10.16b, v14.16b
	movi	v14.16b, #254
	and	v8.16b, v11.16b, v8.16b
	and	v11.16b, v16.16b, v4.16b
	orr	v12.16b, v12.16b, v31.16b
	orr	v29.16b, v29.16b, v9.16b
	orr	v9.16b, v30.16b, v13.16b
	and	v13.16b, v5.16b, v4.16b
	and	v23.16b, v15.16b, v23.16b
	ldr	q15, [sp]
	and	v1.16b, v10.16b, v1.16b
	uqsub	v31.16b, v11.16b, v8.16b
	and	v8.16b, v20.16b, v14.16b
	and	v0.16b, v0.16b, v25.16b
	uqsub	v30.16b, v28.16b, v11.16b
	and	v25.16b, v3.16b, v4.16b
	and	v10.16b, v7.16b, v14.16b
	and	v11.16b, v17.16b, v14.16b
	uqsub	v28.16b, v29.16b, v13.16b
	uqsub	v29.16b, v13.16b, v23.16b
	uqsub	v23.16b, v20.16b, v27.16b
	and	v13.16b, v2.16b, v14.16b
	movi	v14.16b, #1
	and	v4.16b, v15.16b, v4.16b
	cmeq	v8.16b, v8.16b, v6.16b
	uqsub	v20.16b, v9.16b, v25.16b
	uqsub	v0.16b, v25.16b, v0.16b
	uqsub	v17.16b, v17.16b, v27.16b
	cmeq	v25.16b, v10.16b, v6.16b
	cmeq	v10.16b, v11.16b, v6.16b
	uqsub	v11.16b, v7.16b, v27.16b
	cmeq	v9.16b, v13.16b, v6.16b
	orr	v23.16b, v23.16b, v26.16b
	and	v26.16b, v8.16b, v14.16b
	uqsub	v7.16b, v4.16b, v1.16b
	uqsub	v1.16b, v2.16b, v27.16b
	uqsub	v6.16b, v12.16b, v4.16b
	and	v4.16b, v25.16b, v14.16b
	and	v25.16b, v10.16b, v14.16b
	ldp	q2, q10, [sp, #64]
	orr	v17.16b, v17.16b, v21.16b
	orr	v21.16b, v23.16b, v26.16b
	orr	v23.16b, v11.16b, v24.16b
	ext	v24.16b, v3.16b, v16.16b, #14
	movi	v26.16b, #96
	ext	v27.16b, v3.16b, v16.16b, #13
	movi	v8.16b, #112
	and	v12.16b, v9.16b, v14.16b
	orr	v1.16b, v1.16b, v2.16b
	orr	v17.16b, v17.16b, v25.16b
	ext	v25.16b, v15.16b, v3.16b, #14
	ext	v9.16b, v5.16b, v15.16b, #14
	ext	v3.16b, v15.16b, v3.16b, #13
	ext	v2.16b, v5.16b, v15.16b, #13
	orr	v4.16b, v23.16b, v4.16b
	ext	v23.16b, v10.16b, v5.16b, #14
	ext	v10.16b, v10.16b, v5.16b, #13
	orr	v1.16b, v1.16b, v12.16b
	uqsub	v5.16b, v24.16b, v26.16b
	uqsub	v24.16b, v27.16b, v8.16b
	mov	v11.16b, v16.16b
	orr	v16.16b, v17.16b, v18.16b
	ldr	q18, [sp, #48]
	uqsub	v25.16b, v25.16b, v26.16b
	uqsub	v27.16b, v9.16b, v26.16b
	uqsub	v3.16b, v3.16b, v8.16b
	uqsub	v2.16b, v2.16b, v8.16b
	orr	v1.16b, v1.16b, v22.16b
	uqsub	v22.16b, v23.16b, v26.16b
	uqsub	v23.16b, v10.16b, v8.16b
	orr	v18.16b, v21.16b, v18.16b
	movi	v21.16b, #128
	orr	v17.16b, v31.16b, v30.16b
	orr	v5.16b, v5.16b, v24.16b
	orr	v4.16b, v4.16b, v19.16b
	ldr	q19, [x23, :lo12:.LCPI12_1]
	orr	v0.16b, v0.16b, v20.16b
	ldr	q20, [sp, #96]
	orr	v6.16b, v7.16b, v6.16b
	orr	v16.16b, v16.16b, v17.16b
	orr	v17.16b, v29.16b, v28.16b
	orr	v2.16b, v27.16b, v2.16b
	orr	v3.16b, v25.16b, v3.16b
	orr	v7.16b, v22.16b, v23.16b
	and	v5.16b, v5.16b, v21.16b
	orr	v0.16b, v4.16b, v0.16b
	orr	v4.16b, v18.16b, v6.16b
	uqsub	v6.16b, v11.16b, v19.16b
	orr	v1.16b, v1.16b, v17.16b
	and	v2.16b, v2.16b, v21.16b
	and	v7.16b, v7.16b, v21.16b
	and	v3.16b, v3.16b, v21.16b
	eor	v5.16b, v16.16b, v5.16b
	eor	v4.16b, v4.16b, v2.16b
	eor	v17.16b, v0.16b, v3.16b
	eor	v2.16b, v1.16b, v7.16b
	orr	v5.16b, v5.16b, v6.16b
	b	.LBB12_18
.LBB12_29:
	add	x2, x11, #64
	cmp	x2, #64
	b.lo	.LBB12_36
	movi	v24.2d, #0000000000000000
	movi	v7.2d, #0000000000000000
	mov	x9, xzr
	movi	v4.2d, #0000000000000000
	movi	v5.2d, #0000000000000000
	movi	v6.2d, #0000000000000000
	movi	v0.2d, #0000000000000000
	movi	v3.2d, #0000000000000000
	movi	v21.2d, #0000000000000000
	movi	v22.2d, #0000000000000000
	b	.LBB12_33
.LBB12_31:
	movi	v5.16b, #192
	ext	v7.16b, v26.16b, v23.16b, #15
	str	q24, [sp, #80]
	ext	v19.16b, v1.16b, v2.16b, #15
	movi	v11.16b, #128
	stp	q22, q21, [sp, #112]
	movi	v6.16b, #191
	ext	v20.16b, v24.16b, v1.16b, #15
	stp	q3, q0, [sp, #144]
	ext	v18.16b, v2.16b, v26.16b, #15
	movi	v4.16b, #240
	movi	v12.16b, #224
	cmgt	v17.16b, v5.16b, v23.16b
	cmgt	v16.16b, v5.16b, v1.16b
	cmgt	v24.16b, v5.16b, v26.16b
	cmgt	v27.16b, v5.16b, v7.16b
	cmgt	v29.16b, v5.16b, v2.16b
	cmgt	v30.16b, v5.16b, v19.16b
	cmhi	v31.16b, v19.16b, v6.16b
	cmhi	v10.16b, v7.16b, v6.16b
	cmgt	v25.16b, v5.16b, v20.16b
	and	v22.16b, v17.16b, v11.16b
	cmgt	v28.16b, v5.16b, v18.16b
	and	v21.16b, v16.16b, v11.16b
	cmhi	v8.16b, v18.16b, v6.16b
	and	v9.16b, v24.16b, v11.16b
	and	v11.16b, v29.16b, v11.16b
	cmhi	v6.16b, v20.16b, v6.16b
	eor	v29.16b, v29.16b, v31.16b
	eor	v17.16b, v17.16b, v10.16b
	and	v22.16b, v22.16b, v27.16b
	movi	v31.16b, #160
	cmeq	v10.16b, v20.16b, v12.16b
	eor	v8.16b, v24.16b, v8.16b
	and	v24.16b, v11.16b, v30.16b
	movi	v11.16b, #144
	uqsub	v17.16b, v17.16b, v27.16b
	cmeq	v27.16b, v7.16b, v12.16b
	movi	v14.16b, #237
	str	q22, [sp, #32]
	and	v22.16b, v9.16b, v28.16b
	eor	v9.16b, v16.16b, v6.16b
	uqsub	v6.16b, v29.16b, v30.16b
	cmeq	v29.16b, v7.16b, v4.16b
	movi	v30.16b, #244
	and	v27.16b, v27.16b, v31.16b
	and	v21.16b, v21.16b, v25.16b
	and	v10.16b, v10.16b, v31.16b
	cmeq	v13.16b, v19.16b, v4.16b
	uqsub	v25.16b, v9.16b, v25.16b
	and	v29.16b, v29.16b, v11.16b
	str	q6, [sp, #64]
	uqsub	v6.16b, v8.16b, v28.16b
	cmeq	v28.16b, v20.16b, v4.16b
	cmeq	v8.16b, v18.16b, v12.16b
	cmeq	v12.16b, v19.16b, v12.16b
	cmeq	v0.16b, v19.16b, v30.16b
	cmeq	v15.16b, v20.16b, v30.16b
	cmeq	v3.16b, v7.16b, v30.16b
	and	v28.16b, v28.16b, v11.16b
	str	q6, [sp, #48]
	and	v9.16b, v12.16b, v31.16b
	and	v31.16b, v8.16b, v31.16b
	cmeq	v8.16b, v18.16b, v4.16b
	orr	v6.16b, v27.16b, v29.16b
	mov	v27.16b, v2.16b
	mov	v2.16b, v1.16b
	movi	v1.16b, #128
	and	v12.16b, v13.16b, v11.16b
	orr	v16.16b, v10.16b, v28.16b
	cmeq	v29.16b, v20.16b, v14.16b
	cmeq	v10.16b, v7.16b, v14.16b
	cmeq	v13.16b, v18.16b, v14.16b
	cmeq	v14.16b, v19.16b, v14.16b
	mov	v28.16b, v23.16b
	and	v8.16b, v8.16b, v11.16b
	cmeq	v23.16b, v18.16b, v30.16b
	orr	v9.16b, v9.16b, v12.16b
	orn	v29.16b, v11.16b, v29.16b
	orn	v10.16b, v11.16b, v10.16b
	orn	v0.16b, v1.16b, v0.16b
	orn	v13.16b, v11.16b, v13.16b
	orn	v11.16b, v11.16b, v14.16b
	orn	v14.16b, v1.16b, v15.16b
	orr	v31.16b, v31.16b, v8.16b
	and	v8.16b, v28.16b, v4.16b
	movi	v15.16b, #254
	orn	v3.16b, v1.16b, v3.16b
	and	v12.16b, v2.16b, v4.16b
	orn	v23.16b, v1.16b, v23.16b
	and	v11.16b, v11.16b, v0.16b
	and	v29.16b, v29.16b, v14.16b
	movi	v14.16b, #1
	uqsub	v0.16b, v6.16b, v8.16b
	ldr	q6, [sp, #32]
	and	v3.16b, v10.16b, v3.16b
	and	v23.16b, v13.16b, v23.16b
	and	v10.16b, v26.16b, v4.16b
	uqsub	v29.16b, v12.16b, v29.16b
	and	v13.16b, v7.16b, v15.16b
	and	v4.16b, v27.16b, v4.16b
	str	q0, [sp, #16]
	uqsub	v0.16b, v16.16b, v12.16b
	and	v12.16b, v20.16b, v15.16b
	uqsub	v20.16b, v20.16b, v30.16b
	uqsub	v1.16b, v8.16b, v3.16b
	and	v3.16b, v18.16b, v15.16b
	and	v8.16b, v19.16b, v15.16b
	uqsub	v19.16b, v19.16b, v30.16b
	uqsub	v15.16b, v18.16b, v30.16b
	cmeq	v12.16b, v12.16b, v5.16b
	uqsub	v30.16b, v7.16b, v30.16b
	cmeq	v13.16b, v13.16b, v5.16b
	cmeq	v3.16b, v3.16b, v5.16b
	uqsub	v7.16b, v10.16b, v23.16b
	uqsub	v18.16b, v9.16b, v4.16b
	cmeq	v8.16b, v8.16b, v5.16b
	orr	v20.16b, v20.16b, v21.16b
	uqsub	v5.16b, v31.16b, v10.16b
	and	v23.16b, v12.16b, v14.16b
	orr	v19.16b, v19.16b, v24.16b
	uqsub	v4.16b, v4.16b, v11.16b
	orr	v24.16b, v30.16b, v6.16b
	ldr	q6, [sp, #80]
	and	v3.16b, v3.16b, v14.16b
	and	v21.16b, v8.16b, v14.16b
	and	v31.16b, v13.16b, v14.16b
	orr	v22.16b, v15.16b, v22.16b
	orr	v20.16b, v20.16b, v23.16b
	ext	v23.16b, v2.16b, v27.16b, #14
	movi	v30.16b, #96
	ext	v8.16b, v2.16b, v27.16b, #13
	movi	v9.16b, #112
	ext	v10.16b, v26.16b, v28.16b, #14
	ext	v11.16b, v6.16b, v2.16b, #14
	ext	v12.16b, v6.16b, v2.16b, #13
	ldr	q6, [sp, #48]
	ext	v13.16b, v27.16b, v26.16b, #14
	ext	v14.16b, v27.16b, v26.16b, #13
	ext	v15.16b, v26.16b, v28.16b, #13
	orr	v3.16b, v22.16b, v3.16b
	orr	v19.16b, v19.16b, v21.16b
	orr	v21.16b, v24.16b, v31.16b
	orr	v20.16b, v20.16b, v25.16b
	uqsub	v22.16b, v23.16b, v30.16b
	uqsub	v23.16b, v8.16b, v9.16b
	uqsub	v24.16b, v11.16b, v30.16b
	uqsub	v25.16b, v10.16b, v30.16b
	uqsub	v31.16b, v12.16b, v9.16b
	uqsub	v30.16b, v13.16b, v30.16b
	uqsub	v8.16b, v15.16b, v9.16b
	uqsub	v9.16b, v14.16b, v9.16b
	orr	v16.16b, v29.16b, v0.16b
	ldr	q0, [sp, #16]
	orr	v3.16b, v3.16b, v6.16b
	ldr	q6, [sp, #64]
	orr	v17.16b, v21.16b, v17.16b
	orr	v4.16b, v4.16b, v18.16b
	orr	v0.16b, v1.16b, v0.16b
	movi	v1.16b, #128
	orr	v18.16b, v22.16b, v23.16b
	orr	v6.16b, v19.16b, v6.16b
	orr	v5.16b, v7.16b, v5.16b
	orr	v7.16b, v24.16b, v31.16b
	orr	v19.16b, v30.16b, v9.16b
	orr	v21.16b, v25.16b, v8.16b
	movi	v22.2d, #0xffffffffffffffff
	orr	v16.16b, v20.16b, v16.16b
	orr	v0.16b, v17.16b, v0.16b
	mov	v23.16b, v28.16b
	orr	v4.16b, v6.16b, v4.16b
	and	v6.16b, v18.16b, v1.16b
	ldr	q18, [x23, :lo12:.LCPI12_1]
	orr	v3.16b, v3.16b, v5.16b
	and	v7.16b, v7.16b, v1.16b
	and	v17.16b, v21.16b, v1.16b
	and	v5.16b, v19.16b, v1.16b
	uqsub	v1.16b, v2.16b, v22.16b
	uqsub	v2.16b, v27.16b, v22.16b
	uqsub	v19.16b, v26.16b, v22.16b
	ldp	q20, q22, [sp, #96]
	uqsub	v18.16b, v28.16b, v18.16b
	eor	v4.16b, v4.16b, v6.16b
	eor	v6.16b, v0.16b, v17.16b
	ldr	q0, [sp, #160]
	eor	v5.16b, v3.16b, v5.16b
	eor	v7.16b, v16.16b, v7.16b
	ldp	q21, q3, [sp, #128]
.LBB12_32:
	orr	v0.16b, v7.16b, v0.16b
	orr	v3.16b, v4.16b, v3.16b
	sub	x8, x8, #64
	orr	v21.16b, v5.16b, v21.16b
	orr	v22.16b, v6.16b, v22.16b
	add	x9, x9, #64
	mov	v24.16b, v23.16b
	mov	v7.16b, v1.16b
	cmp	x8, #63
	mov	v4.16b, v2.16b
	mov	v5.16b, v19.16b
	mov	v6.16b, v18.16b
	b.ls	.LBB12_35
.LBB12_33:
	add	x10, x1, x9
	ldp	q1, q2, [x10]
	ldp	q26, q23, [x10, #32]
	cmlt	v16.16b, v1.16b, #0
	cmlt	v19.16b, v2.16b, #0
	cmlt	v17.16b, v23.16b, #0
	cmlt	v18.16b, v26.16b, #0
	and	v16.16b, v16.16b, v20.16b
	and	v19.16b, v19.16b, v20.16b
	and	v18.16b, v18.16b, v20.16b
	and	v17.16b, v17.16b, v20.16b
	addp	v16.16b, v16.16b, v19.16b
	addp	v17.16b, v18.16b, v17.16b
	addp	v16.16b, v16.16b, v17.16b
	addp	v16.16b, v16.16b, v16.16b
	fmov	x10, d16
	cbnz	x10, .LBB12_31
	movi	v1.2d, #0000000000000000
	movi	v2.2d, #0000000000000000
	movi	v19.2d, #0000000000000000
	movi	v18.2d, #0000000000000000
	b	.LBB12_32
.LBB12_35:
	and	x3, x2, #0xffffffffffffffc0
	stp	q18, q19, [sp, #16]
	stp	q2, q1, [sp, #48]
	str	q23, [sp, #80]
	stp	q22, q21, [sp, #112]
	stp	q3, q0, [sp, #144]
	b	.LBB12_27
.LBB12_36:
	movi	v0.2d, #0000000000000000
	mov	x3, xzr
	b	.LBB12_26
.LBB12_37:
	sub	x0, x29, #128
	add	x1, x21, x24
	mov	x2, x22
	stp	xzr, xzr, [x29, #-128]
	stur	xzr, [x29, #-112]
	bl	"core::str::utf8::from_utf8"
	ldurb	w8, [x29, #-128]
	cbz	w8, .LBB12_39
	mov	x21, xzr
	mov	x20, xzr
	mov	x8, xzr
	b	.LBB12_40
.LBB12_39:
	mov	w8, #1
.LBB12_40:
	stp	x8, x21, [x19]
	str	x20, [x19, #16]
.LBB12_41:
	ldp	x20, x19, [sp, #400]
	ldp	x22, x21, [sp, #384]
	ldp	x24, x23, [sp, #368]
	ldp	x28, x25, [sp, #352]
	ldp	x29, x30, [sp, #336]
	ldp	d9, d8, [sp, #320]
	ldp	d11, d10, [sp, #304]
	ldp	d13, d12, [sp, #288]
	ldp	d15, d14, [sp, #272]
	add	sp, sp, #416
	ret
.Lfunc_end12:
	.size	"unftp_control_message::utf8::long_text", .Lfunc_end12-"unftp_control_message::utf8::long_text"

	.section	".text.simdutf8::last_block","ax",@progbits
	.p2align	2
	.type	"simdutf8::last_block",@function
"simdutf8::last_block":
	stp	x29, x30, [sp, #-32]!
	sub	x9, sp, #96
	str	x19, [sp, #16]
	mov	x29, sp
	and	sp, x9, #0xffffffffffffffc0
	movi	v0.2d, #0000000000000000
	mov	x19, x0
	sub	x2, x2, x3
	mov	x0, sp
	add	x1, x1, x3
	stp	q0, q0, [sp]
	stp	q0, q0, [sp, #32]
	bl	memcpy
	ldp	q1, q0, [sp, #32]
	stp	q1, q0, [x19, #32]
	ldp	q2, q0, [sp]
	stp	q2, q0, [x19]
	mov	sp, x29
	ldr	x19, [sp, #16]
	ldp	x29, x30, [sp], #32
	ret
.Lfunc_end13:
	.size	"simdutf8::last_block", .Lfunc_end13-"simdutf8::last_block"

	.section	".text.unftp_control_codecs::line_parser::typed::typed_bytes","ax",@progbits
	.p2align	2
	.type	"unftp_control_codecs::line_parser::typed::typed_bytes",@function
"unftp_control_codecs::line_parser::typed::typed_bytes":
	sub	sp, sp, #112
	and	x11, x1, #0xff
	adrp	x12, .LJTI14_0
	add	x12, x12, :lo12:.LJTI14_0
	stp	x29, x30, [sp, #64]
	add	x29, sp, #64
	mov	w9, #1
	str	x21, [sp, #80]
	mov	x10, xzr
	mov	w8, wzr
	stp	x20, x19, [sp, #96]
	mov	w14, wzr
	stp	xzr, xzr, [sp]
	adr	x15, .LBB14_1
	ldrb	w13, [x12, x11]
	add	x15, x15, x13, lsl #2
	mov	w11, wzr
	mov	w12, wzr
	mov	w13, wzr
	br	x15
.LBB14_1:
	ldr	q0, [sp]
	ldp	x20, x19, [sp, #96]
	ldp	x29, x30, [sp, #64]
	ldr	x21, [sp, #80]
	strb	w9, [x0]
	strb	w8, [x0, #1]
	strb	w11, [x0, #8]
	strb	w12, [x0, #9]
	strb	w13, [x0, #10]
	strb	w14, [x0, #11]
	str	x10, [x0, #16]
	stur	q0, [x0, #24]
	add	sp, sp, #112
	ret
.LBB14_2:
	cmp	x3, #1
	b.ne	.LBB14_27
	ldrb	w11, [x2]
	mov	x10, xzr
	mov	w8, wzr
	cmp	w11, #79
	b.gt	.LBB14_47
	cmp	w11, #67
	b.eq	.LBB14_80
	cmp	w11, #69
	mov	w11, w8
	mov	w12, w8
	mov	w13, w8
	mov	w14, w8
	b.ne	.LBB14_1
	mov	w9, wzr
	mov	w8, wzr
	mov	w14, wzr
	mov	x10, xzr
	mov	w12, #2
	mov	w11, #4
	mov	w13, #2
	b	.LBB14_1
.LBB14_7:
	cmp	x3, #7
	b.eq	.LBB14_42
	cmp	x3, #8
	b.ne	.LBB14_27
	ldrb	w9, [x2]
	ldrb	w13, [x2, #1]
	ldrb	w12, [x2, #2]
	ldrb	w11, [x2, #3]
	cmp	w9, #85
	b.ne	.LBB14_56
	cmp	w13, #84
	b.ne	.LBB14_56
	cmp	w12, #70
	b.ne	.LBB14_56
	cmp	w11, #56
	b.ne	.LBB14_56
	mov	x19, x0
	adrp	x0, .Lstatic.52
	add	x0, x0, :lo12:.Lstatic.52
	mov	w1, #8
	bl	"core::cmp::slices::groups_equal::<i8,31'core::cmp::numbers::U8PartialEq{}>"
	tbz	w0, #0, .LBB14_61
.LBB14_14:
	mov	w14, wzr
	mov	x0, x19
	b	.LBB14_68
.LBB14_15:
	cmp	x3, #1
	b.ne	.LBB14_27
	ldrb	w8, [x2]
	cmp	w8, #83
	b.eq	.LBB14_72
	cmp	w8, #67
	b.eq	.LBB14_71
	cmp	w8, #66
	b.ne	.LBB14_27
	mov	w9, wzr
	mov	w8, wzr
	mov	w14, wzr
	mov	x10, xzr
	mov	w12, #1
	mov	w11, #4
	mov	w13, #1
	b	.LBB14_1
.LBB14_20:
	mov	x19, x0
	sub	x0, x29, #24
	mov	x1, x2
	mov	x2, x3
	stp	xzr, xzr, [x29, #-16]
	stur	xzr, [x29, #-24]
	stp	xzr, xzr, [sp, #24]
	bl	"core::str::utf8::from_utf8"
	ldurb	w8, [x29, #-24]
	cbz	w8, .LBB14_38
	mov	w11, wzr
	mov	x10, xzr
	stp	xzr, xzr, [sp]
	mov	w9, #1
	mov	x0, x19
	b	.LBB14_92
.LBB14_22:
	cmp	x3, #1
	b.ne	.LBB14_27
	ldrb	w8, [x2]
	cmp	w8, #70
	b.eq	.LBB14_74
	cmp	w8, #80
	b.eq	.LBB14_73
	cmp	w8, #82
	b.ne	.LBB14_27
	mov	w9, wzr
	mov	w8, wzr
	mov	w12, wzr
	mov	w14, wzr
	mov	x10, xzr
	mov	w13, #1
	b	.LBB14_83
.LBB14_27:
	mov	w8, wzr
	mov	w11, wzr
	mov	w12, wzr
	mov	w13, wzr
.LBB14_28:
	mov	w14, wzr
	mov	x10, xzr
	b	.LBB14_1
.LBB14_29:
	cmp	x3, #4
	stp	xzr, xzr, [x29, #-24]
	stur	xzr, [x29, #-8]
	b.lo	.LBB14_36
	mov	w8, wzr
	mov	w11, wzr
	mov	w12, wzr
	mov	w13, wzr
	stp	xzr, xzr, [sp]
	b	.LBB14_28
.LBB14_31:
	cmp	x3, #1
	stp	xzr, xzr, [x29, #-24]
	b.ne	.LBB14_34
	ldrb	w8, [x2]
	cmp	w8, #48
	b.ne	.LBB14_34
	mov	w9, wzr
	mov	w12, #5
	mov	w11, #4
	b	.LBB14_35
.LBB14_34:
	mov	w11, wzr
	mov	w12, wzr
.LBB14_35:
	ldur	q0, [x29, #-24]
	mov	w8, wzr
	mov	w13, wzr
	mov	w14, wzr
	mov	x10, xzr
	str	q0, [sp]
	b	.LBB14_1
.LBB14_36:
	mov	x19, x0
	sub	x0, x29, #24
	mov	x20, x2
	mov	x1, x2
	mov	x2, x3
	mov	x21, x3
	bl	"core::str::utf8::from_utf8"
	ldurb	w8, [x29, #-24]
	cbz	w8, .LBB14_50
	mov	w11, wzr
	mov	w12, wzr
	mov	w13, wzr
	stp	xzr, xzr, [sp]
	mov	w9, #1
	mov	w8, #1
	mov	x0, x19
	b	.LBB14_28
.LBB14_38:
	ldur	x13, [x29, #-8]
	cbz	x13, .LBB14_69
	ldur	x12, [x29, #-16]
	ldrb	w8, [x12]
	cmp	w8, #43
	b.ne	.LBB14_75
	subs	x13, x13, #1
	mov	x0, x19
	b.ne	.LBB14_85
.LBB14_41:
	mov	w11, wzr
	mov	x10, xzr
	mov	w9, #1
	b	.LBB14_91
.LBB14_42:
	ldrb	w9, [x2]
	ldrb	w13, [x2, #1]
	ldrb	w12, [x2, #2]
	ldrb	w11, [x2, #3]
	cmp	w9, #85
	b.ne	.LBB14_62
	cmp	w13, #84
	b.ne	.LBB14_62
	cmp	w12, #70
	b.ne	.LBB14_62
	cmp	w11, #56
	b.ne	.LBB14_62
	adrp	x8, .Lstatic.50
	add	x8, x8, :lo12:.Lstatic.50
	b	.LBB14_67
.LBB14_47:
	cmp	w11, #80
	b.eq	.LBB14_81
	cmp	w11, #83
	mov	w11, w8
	mov	w12, w8
	mov	w13, w8
	mov	w14, w8
	b.ne	.LBB14_1
	mov	w9, wzr
	mov	w8, wzr
	mov	w14, wzr
	mov	x10, xzr
	mov	w13, #1
	b	.LBB14_82
.LBB14_50:
	cmp	x21, #3
	mov	x0, x19
	b.ne	.LBB14_97
	ldrb	w9, [x20]
	mov	x8, x20
	sub	w10, w9, #65
	add	w11, w9, #32
	cmp	w10, #26
	csel	w9, w11, w9, lo
	cmp	w9, #115
	b.eq	.LBB14_93
	cmp	w9, #116
	b.ne	.LBB14_97
	ldrb	w9, [x8, #1]
	sub	w10, w9, #65
	add	w11, w9, #32
	cmp	w10, #26
	csel	w9, w11, w9, lo
	cmp	w9, #108
	b.ne	.LBB14_97
	ldrb	w8, [x8, #2]
	sub	w9, w8, #65
	add	w10, w8, #32
	cmp	w9, #26
	csel	w8, w10, w8, lo
	cmp	w8, #115
	b.ne	.LBB14_97
	mov	w13, #1
	b	.LBB14_96
.LBB14_56:
	mov	x10, xzr
	mov	w8, wzr
	cmp	w9, #117
	mov	w9, #1
	b.ne	.LBB14_84
	cmp	w13, #116
	b.ne	.LBB14_84
	cmp	w12, #102
	b.ne	.LBB14_84
	cmp	w11, #56
	mov	w11, w8
	mov	w12, w8
	mov	w13, w8
	mov	w14, w8
	b.ne	.LBB14_1
	mov	x19, x0
	adrp	x0, .Lstatic.53
	add	x0, x0, :lo12:.Lstatic.53
	mov	w1, #8
	bl	"core::cmp::slices::groups_equal::<i8,31'core::cmp::numbers::U8PartialEq{}>"
	cbnz	w0, .LBB14_14
.LBB14_61:
	mov	w8, wzr
	mov	w11, wzr
	mov	w12, wzr
	mov	w13, wzr
	mov	w14, wzr
	mov	x10, xzr
	mov	w9, #1
	mov	x0, x19
	b	.LBB14_1
.LBB14_62:
	mov	x10, xzr
	mov	w8, wzr
	cmp	w9, #117
	mov	w9, #1
	b.ne	.LBB14_84
	cmp	w13, #116
	b.ne	.LBB14_84
	cmp	w12, #102
	b.ne	.LBB14_84
	cmp	w11, #56
	mov	w11, w8
	mov	w12, w8
	mov	w13, w8
	mov	w14, w8
	b.ne	.LBB14_1
	adrp	x8, .Lstatic.51
	add	x8, x8, :lo12:.Lstatic.51
.LBB14_67:
	mov	x19, x0
	mov	x0, x8
	mov	w1, #7
	bl	"core::cmp::slices::groups_equal::<i8,31'core::cmp::numbers::U8PartialEq{}>"
	mov	w8, w0
	mov	x0, x19
	mov	w14, #1
	tbz	w8, #0, .LBB14_70
.LBB14_68:
	mov	w9, wzr
	mov	w8, wzr
	mov	w13, wzr
	mov	x10, xzr
	mov	w11, #4
	mov	w12, #4
	b	.LBB14_1
.LBB14_69:
	mov	w11, wzr
	mov	x10, xzr
	mov	w9, #1
	mov	x0, x19
	b	.LBB14_91
.LBB14_70:
	mov	w8, wzr
	mov	w11, wzr
	mov	w12, wzr
	mov	w13, wzr
	mov	w14, wzr
	mov	x10, xzr
	mov	w9, #1
	b	.LBB14_1
.LBB14_71:
	mov	w9, wzr
	mov	w8, wzr
	mov	w14, wzr
	mov	x10, xzr
	mov	w13, #2
	mov	w12, #1
	b	.LBB14_83
.LBB14_72:
	mov	w9, wzr
	mov	w8, wzr
	mov	w13, wzr
	mov	w14, wzr
	mov	x10, xzr
	mov	w12, #1
	b	.LBB14_83
.LBB14_73:
	mov	w9, wzr
	mov	w8, wzr
	mov	w12, wzr
	mov	w14, wzr
	mov	x10, xzr
	mov	w13, #2
	b	.LBB14_83
.LBB14_74:
	mov	w9, wzr
	mov	w8, wzr
	mov	w12, wzr
	mov	w13, wzr
	mov	w14, wzr
	mov	x10, xzr
	b	.LBB14_83
.LBB14_75:
	mov	x14, #-7378697629483820647
	mov	x8, xzr
	mov	x0, x19
	eor	x14, x14, #0x8000000000000003
.LBB14_76:
	mov	x10, xzr
	mov	w11, wzr
	cmp	x8, x14
	mov	w9, #1
	b.hs	.LBB14_91
	ldrb	w15, [x12], #1
	sub	w16, w15, #48
	cmp	w16, #9
	b.hi	.LBB14_91
	add	x8, x8, x8, lsl #2
	and	x9, x15, #0xf
	lsl	x8, x8, #1
	cmn	x9, x8
	b.hs	.LBB14_41
	subs	x13, x13, #1
	add	x8, x8, x9
	b.ne	.LBB14_76
	b	.LBB14_90
.LBB14_80:
	mov	w9, wzr
	mov	w8, wzr
	mov	w13, wzr
	mov	w14, wzr
	mov	x10, xzr
	b	.LBB14_82
.LBB14_81:
	mov	w9, wzr
	mov	w8, wzr
	mov	w14, wzr
	mov	x10, xzr
	mov	w13, #3
.LBB14_82:
	mov	w12, #2
.LBB14_83:
	mov	w11, #4
	b	.LBB14_1
.LBB14_84:
	mov	w11, w8
	mov	w12, w8
	mov	w13, w8
	mov	w14, w8
	b	.LBB14_1
.LBB14_85:
	mov	x14, #-7378697629483820647
	mov	x8, xzr
	add	x12, x12, #1
	eor	x14, x14, #0x8000000000000003
.LBB14_86:
	mov	x10, xzr
	mov	w11, wzr
	cmp	x8, x14
	mov	w9, #1
	b.hs	.LBB14_91
	ldrb	w15, [x12], #1
	sub	w16, w15, #48
	cmp	w16, #9
	b.hi	.LBB14_91
	add	x8, x8, x8, lsl #2
	and	x9, x15, #0xf
	lsl	x8, x8, #1
	cmn	x9, x8
	b.hs	.LBB14_41
	subs	x13, x13, #1
	add	x8, x8, x9
	b.ne	.LBB14_86
.LBB14_90:
	mov	w9, wzr
	mov	w11, #5
	mov	x10, x8
	stp	xzr, xzr, [sp, #24]
.LBB14_91:
	ldur	q0, [sp, #24]
	str	q0, [sp]
.LBB14_92:
	mov	w8, wzr
	mov	w12, wzr
	mov	w13, wzr
	mov	w14, wzr
	b	.LBB14_1
.LBB14_93:
	ldrb	w9, [x8, #1]
	sub	w10, w9, #65
	add	w11, w9, #32
	cmp	w10, #26
	csel	w9, w11, w9, lo
	cmp	w9, #115
	b.ne	.LBB14_97
	ldrb	w8, [x8, #2]
	sub	w9, w8, #65
	add	w10, w8, #32
	cmp	w9, #26
	csel	w8, w10, w8, lo
	cmp	w8, #108
	b.ne	.LBB14_97
	mov	w13, wzr
.LBB14_96:
	mov	w9, wzr
	mov	w8, wzr
	mov	w12, #3
	mov	w11, #4
	stp	xzr, xzr, [sp]
	b	.LBB14_28
.LBB14_97:
	mov	w8, wzr
	mov	w11, wzr
	mov	w12, wzr
	mov	w13, wzr
	stp	xzr, xzr, [sp]
	mov	w9, #1
	b	.LBB14_28
.Lfunc_end14:
	.size	"unftp_control_codecs::line_parser::typed::typed_bytes", .Lfunc_end14-"unftp_control_codecs::line_parser::typed::typed_bytes"
	.section	".rodata.unftp_control_codecs::line_parser::typed::typed_bytes","a",@progbits
.LJTI14_0:
	.byte	(.LBB14_1-.LBB14_1)>>2
	.byte	(.LBB14_1-.LBB14_1)>>2
	.byte	(.LBB14_1-.LBB14_1)>>2
	.byte	(.LBB14_1-.LBB14_1)>>2
	.byte	(.LBB14_1-.LBB14_1)>>2
	.byte	(.LBB14_1-.LBB14_1)>>2
	.byte	(.LBB14_22-.LBB14_1)>>2
	.byte	(.LBB14_15-.LBB14_1)>>2
	.byte	(.LBB14_1-.LBB14_1)>>2
	.byte	(.LBB14_1-.LBB14_1)>>2
	.byte	(.LBB14_1-.LBB14_1)>>2
	.byte	(.LBB14_1-.LBB14_1)>>2
	.byte	(.LBB14_1-.LBB14_1)>>2
	.byte	(.LBB14_1-.LBB14_1)>>2
	.byte	(.LBB14_1-.LBB14_1)>>2
	.byte	(.LBB14_1-.LBB14_1)>>2
	.byte	(.LBB14_1-.LBB14_1)>>2
	.byte	(.LBB14_1-.LBB14_1)>>2
	.byte	(.LBB14_1-.LBB14_1)>>2
	.byte	(.LBB14_1-.LBB14_1)>>2
	.byte	(.LBB14_1-.LBB14_1)>>2
	.byte	(.LBB14_1-.LBB14_1)>>2
	.byte	(.LBB14_1-.LBB14_1)>>2
	.byte	(.LBB14_1-.LBB14_1)>>2
	.byte	(.LBB14_7-.LBB14_1)>>2
	.byte	(.LBB14_1-.LBB14_1)>>2
	.byte	(.LBB14_1-.LBB14_1)>>2
	.byte	(.LBB14_1-.LBB14_1)>>2
	.byte	(.LBB14_1-.LBB14_1)>>2
	.byte	(.LBB14_1-.LBB14_1)>>2
	.byte	(.LBB14_1-.LBB14_1)>>2
	.byte	(.LBB14_1-.LBB14_1)>>2
	.byte	(.LBB14_1-.LBB14_1)>>2
	.byte	(.LBB14_1-.LBB14_1)>>2
	.byte	(.LBB14_29-.LBB14_1)>>2
	.byte	(.LBB14_1-.LBB14_1)>>2
	.byte	(.LBB14_31-.LBB14_1)>>2
	.byte	(.LBB14_2-.LBB14_1)>>2
	.byte	(.LBB14_1-.LBB14_1)>>2
	.byte	(.LBB14_20-.LBB14_1)>>2
	.byte	(.LBB14_1-.LBB14_1)>>2
	.byte	(.LBB14_1-.LBB14_1)>>2
	.byte	(.LBB14_1-.LBB14_1)>>2
	.byte	(.LBB14_1-.LBB14_1)>>2

	.section	".text.unftp_control_message::sent::Sent::to_bytes","ax",@progbits
	.p2align	2
	.type	"unftp_control_message::sent::Sent::to_bytes",@function
"unftp_control_message::sent::Sent::to_bytes":
	sub	sp, sp, #96
	movi	v0.2d, #0000000000000000
	stp	x20, x19, [sp, #80]
	mov	x8, x1
	ldp	x1, x20, [x1, #8]
	ldrb	w8, [x8]
	mov	x19, x0
	stp	x29, x30, [sp, #32]
	add	x29, sp, #32
	str	x23, [sp, #48]
	stp	x22, x21, [sp, #64]
	stp	q0, q0, [sp]
	cbz	x20, .LBB15_4
	cbz	w8, .LBB15_5
	mov	x0, sp
	mov	x2, x20
	bl	"unftp_control_message::sent::unescape"
	ldrb	w8, [sp]
	cbz	w8, .LBB15_12
.LBB15_3:
	movi	v0.2d, #0000000000000000
	mov	w8, #1
	str	xzr, [x19, #40]
	strb	w8, [x19]
	stur	q0, [x19, #8]
	stur	q0, [x19, #24]
	ldp	x20, x19, [sp, #80]
	ldr	x23, [sp, #48]
	ldp	x22, x21, [sp, #64]
	ldp	x29, x30, [sp, #32]
	add	sp, sp, #96
	ret
.LBB15_4:
	adrp	x8, .Lstatic.2
	add	x8, x8, :lo12:.Lstatic.2
	strb	wzr, [x19]
	str	x8, [x19, #8]
	stp	q0, q0, [x19, #16]
	ldp	x20, x19, [sp, #80]
	ldr	x23, [sp, #48]
	ldp	x22, x21, [sp, #64]
	ldp	x29, x30, [sp, #32]
	add	sp, sp, #96
	ret
.LBB15_5:
	tbnz	x20, #63, .LBB15_34
	mov	x23, x1
	mov	x0, x20
	mov	w1, #1
	mov	w22, #1
	bl	rattle_alloc
	tbz	w0, #0, .LBB15_15
	mov	x21, x1
	mov	x1, x23
	sub	x8, x21, x23
	cmp	x8, x20
	b.hs	.LBB15_21
	cmp	x20, #8
	mov	x8, xzr
	b.lo	.LBB15_29
	sub	x9, x21, x1
	cmp	x9, #32
	b.lo	.LBB15_29
	cmp	x20, #32
	b.hs	.LBB15_22
	mov	x8, xzr
	b	.LBB15_26
.LBB15_12:
	ldp	x21, x20, [sp, #8]
	ldr	x23, [sp, #24]
	cbz	x20, .LBB15_16
	mov	w0, #32
	mov	w1, #8
	bl	rattle_alloc
	tbz	w0, #0, .LBB15_19
	mov	w22, wzr
	mov	w8, #1
	stp	x20, x23, [x1, #16]
	stp	x8, x21, [x1]
	b	.LBB15_35
.LBB15_15:
	mov	x21, xzr
	mov	x20, xzr
	mov	x8, xzr
	mov	x1, xzr
	b	.LBB15_35
.LBB15_16:
	cbz	x23, .LBB15_18
	mov	x0, x21
	bl	rattle_dealloc
.LBB15_18:
	mov	w22, wzr
	mov	x20, xzr
	mov	x8, xzr
	mov	x1, xzr
	adrp	x21, .Lstatic.2
	add	x21, x21, :lo12:.Lstatic.2
	b	.LBB15_35
.LBB15_19:
	cbz	x23, .LBB15_3
	mov	x0, x21
	bl	rattle_dealloc
	b	.LBB15_3
.LBB15_21:
	mov	x0, x21
	mov	x2, x20
	bl	memmove
	b	.LBB15_31
.LBB15_22:
	and	x9, x20, #0x18
	and	x8, x20, #0x7fffffffffffffe0
	add	x10, x1, #16
	add	x11, x21, #16
	and	x12, x20, #0x7fffffffffffffe0
.LBB15_23:
	ldp	q0, q1, [x10, #-16]
	subs	x12, x12, #32
	add	x10, x10, #32
	stp	q0, q1, [x11, #-16]
	add	x11, x11, #32
	b.ne	.LBB15_23
	cmp	x20, x8
	b.eq	.LBB15_31
	cbz	x9, .LBB15_29
.LBB15_26:
	mov	x11, x8
	and	x8, x20, #0x7ffffffffffffff8
	sub	x9, x11, x8
	add	x10, x1, x11
	add	x11, x21, x11
.LBB15_27:
	ldr	d0, [x10], #8
	adds	x9, x9, #8
	str	d0, [x11], #8
	b.ne	.LBB15_27
	cmp	x20, x8
	b.eq	.LBB15_31
.LBB15_29:
	sub	x9, x20, x8
	add	x10, x1, x8
	add	x8, x21, x8
.LBB15_30:
	ldrb	w11, [x10], #1
	subs	x9, x9, #1
	strb	w11, [x8], #1
	b.ne	.LBB15_30
.LBB15_31:
	mov	w0, #32
	mov	w1, #8
	bl	rattle_alloc
	tbz	w0, #0, .LBB15_33
	mov	w8, #1
	mov	w22, wzr
	stp	x20, x20, [x1, #16]
	stp	x8, x21, [x1]
	b	.LBB15_35
.LBB15_33:
	mov	x0, x21
	bl	rattle_dealloc
.LBB15_34:
	mov	x21, xzr
	mov	x20, xzr
	mov	x8, xzr
	mov	x1, xzr
	mov	w22, #1
.LBB15_35:
	strb	w22, [x19]
	stp	x21, xzr, [x19, #8]
	stp	x20, x8, [x19, #24]
	str	x1, [x19, #40]
	ldp	x20, x19, [sp, #80]
	ldr	x23, [sp, #48]
	ldp	x22, x21, [sp, #64]
	ldp	x29, x30, [sp, #32]
	add	sp, sp, #96
	ret
.Lfunc_end15:
	.size	"unftp_control_message::sent::Sent::to_bytes", .Lfunc_end15-"unftp_control_message::sent::Sent::to_bytes"

	.section	".text.unlikely.std_alloc::vec::Vec::grow_amortized::<#1908c79f2a33ade2>","ax",@progbits
	.p2align	2
	.type	"std_alloc::vec::Vec::grow_amortized::<#1908c79f2a33ade2>",@function
"std_alloc::vec::Vec::grow_amortized::<#1908c79f2a33ade2>":
	ldr	x8, [x0, #8]
	cmn	x8, x1
	b.lo	.LBB16_2
	mov	w0, wzr
	ret
.LBB16_2:
	stp	x29, x30, [sp, #-32]!
	ldr	x10, [x0, #16]
	add	x9, x8, x1
	mov	w11, #8
	cmp	x9, #8
	stp	x20, x19, [sp, #16]
	mov	x29, sp
	lsl	x12, x10, #1
	csel	x11, x9, x11, hi
	lsr	x13, x10, #62
	cmp	x11, x12
	csel	x9, x11, x12, hi
	cmp	x13, #0
	csel	x19, x9, x11, eq
	tbnz	x19, #63, .LBB16_7
	cbz	x10, .LBB16_6
	mov	x20, x0
	ldr	x0, [x0]
	mov	x1, x8
	mov	x2, x19
	mov	w3, #1
	bl	rattle_realloc
	tbz	w0, #0, .LBB16_7
.LBB16_5:
	mov	w0, #1
	str	x1, [x20]
	str	x19, [x20, #16]
	ldp	x20, x19, [sp, #16]
	ldp	x29, x30, [sp], #32
	ret
.LBB16_6:
	mov	x20, x0
	mov	x0, x9
	mov	w1, #1
	bl	rattle_alloc
	tbnz	w0, #0, .LBB16_5
.LBB16_7:
	mov	w0, wzr
	ldp	x20, x19, [sp, #16]
	ldp	x29, x30, [sp], #32
	ret
.Lfunc_end16:
	.size	"std_alloc::vec::Vec::grow_amortized::<#1908c79f2a33ade2>", .Lfunc_end16-"std_alloc::vec::Vec::grow_amortized::<#1908c79f2a33ade2>"

	.section	.rodata.cst16,"aM",@progbits,16
	.p2align	4, 0x0
.LCPI17_0:
	.byte	1
	.byte	2
	.byte	4
	.byte	8
	.byte	16
	.byte	32
	.byte	64
	.byte	128
	.byte	1
	.byte	2
	.byte	4
	.byte	8
	.byte	16
	.byte	32
	.byte	64
	.byte	128
	.section	".text.unftp_control_message::sent::unescape","ax",@progbits
	.p2align	2
	.type	"unftp_control_message::sent::unescape",@function
"unftp_control_message::sent::unescape":
	sub	sp, sp, #112
	stp	x22, x21, [sp, #80]
	mov	x21, x1
	stp	x20, x19, [sp, #96]
	mov	x20, x2
	mov	x19, x0
	stp	x29, x30, [sp, #32]
	add	x29, sp, #32
	stp	x26, x25, [sp, #48]
	stp	x24, x23, [sp, #64]
	cbz	x2, .LBB17_4
	tbnz	x20, #63, .LBB17_3
	mov	x0, x20
	mov	w1, #1
	bl	rattle_alloc
	tbnz	w0, #0, .LBB17_5
.LBB17_3:
	mov	w8, #1
	stp	xzr, xzr, [x19, #16]
	strb	w8, [x19]
	str	xzr, [x19, #8]
	b	.LBB17_118
.LBB17_4:
	sub	x1, x29, #1
.LBB17_5:
	mov	x24, xzr
	mov	x25, sp
	mov	x22, x20
	stp	x1, xzr, [sp]
	str	x20, [sp, #16]
.LBB17_6:
	cmp	x22, #2
	b.hs	.LBB17_8
	cbnz	x22, .LBB17_11
	b	.LBB17_115
.LBB17_8:
	ldrb	w8, [x21]
	cmp	w8, #13
	b.ne	.LBB17_10
	ldrb	w8, [x21, #1]
	cbz	w8, .LBB17_59
.LBB17_10:
	cmp	x22, #32
	b.hs	.LBB17_14
.LBB17_11:
	mov	x26, xzr
.LBB17_12:
	ldrb	w8, [x21, x26]
	cmp	w8, #13
	b.eq	.LBB17_51
	add	x26, x26, #1
	cmp	x22, x26
	b.ne	.LBB17_12
	b	.LBB17_97
.LBB17_14:
	mov	x12, xzr
	add	x8, x21, x22
	sub	x9, x22, #64
	add	x10, x21, #96
	add	x11, x21, #160
.LBB17_15:
	sub	x14, x22, x12
	adrp	x13, .LCPI17_0
	cmp	x14, #191
	b.ls	.LBB17_22
	movi	v0.16b, #13
	add	x14, x21, x12
	ldp	q1, q2, [x14]
	ldp	q3, q4, [x14, #32]
	add	x14, x12, #64
	cmeq	v2.16b, v2.16b, v0.16b
	cmeq	v1.16b, v1.16b, v0.16b
	cmeq	v4.16b, v4.16b, v0.16b
	cmeq	v3.16b, v3.16b, v0.16b
	ldr	q0, [x13, :lo12:.LCPI17_0]
	and	v1.16b, v1.16b, v0.16b
	and	v2.16b, v2.16b, v0.16b
	and	v3.16b, v3.16b, v0.16b
	and	v4.16b, v4.16b, v0.16b
	addp	v1.16b, v1.16b, v2.16b
	addp	v2.16b, v3.16b, v4.16b
	addp	v1.16b, v1.16b, v2.16b
	addp	v1.16b, v1.16b, v1.16b
	fmov	x15, d1
	cbnz	x15, .LBB17_44
	sub	x15, x22, x14
	cmp	x15, #128
	b.lo	.LBB17_31
	add	x13, x12, #192
	add	x12, x11, x12
.LBB17_19:
	movi	v17.16b, #13
	ldp	q6, q5, [x12, #-96]
	ldp	q16, q18, [x12, #-64]
	ldp	q2, q1, [x12, #-32]
	ldp	q3, q4, [x12], #128
	cmeq	v6.16b, v6.16b, v17.16b
	cmeq	v7.16b, v5.16b, v17.16b
	cmeq	v5.16b, v18.16b, v17.16b
	cmeq	v18.16b, v1.16b, v17.16b
	cmeq	v16.16b, v16.16b, v17.16b
	cmeq	v20.16b, v2.16b, v17.16b
	cmeq	v19.16b, v4.16b, v17.16b
	cmeq	v17.16b, v3.16b, v17.16b
	orr	v18.16b, v18.16b, v19.16b
	orr	v17.16b, v20.16b, v17.16b
	orr	v19.16b, v7.16b, v5.16b
	orr	v20.16b, v6.16b, v16.16b
	orr	v18.16b, v19.16b, v18.16b
	orr	v17.16b, v20.16b, v17.16b
	and	v18.16b, v18.16b, v0.16b
	and	v17.16b, v17.16b, v0.16b
	addp	v17.16b, v17.16b, v18.16b
	addp	v17.16b, v17.16b, v17.16b
	addp	v17.16b, v17.16b, v17.16b
	fmov	w14, s17
	cbnz	w14, .LBB17_47
	sub	x15, x15, #128
	add	x13, x13, #128
	cmp	x15, #127
	b.hi	.LBB17_19
	sub	x12, x13, #128
	cmp	x15, #32
	b.hs	.LBB17_32
	b	.LBB17_35
.LBB17_22:
	cmp	x14, #64
	b.lo	.LBB17_37
.LBB17_23:
	movi	v0.16b, #13
	add	x15, x21, x12
	ldp	q1, q2, [x15]
	ldp	q4, q3, [x15, #32]
	cmeq	v5.16b, v1.16b, v0.16b
	cmeq	v6.16b, v2.16b, v0.16b
	cmeq	v7.16b, v4.16b, v0.16b
	cmeq	v0.16b, v3.16b, v0.16b
	orr	v6.16b, v6.16b, v0.16b
	orr	v5.16b, v5.16b, v7.16b
	ldr	q0, [x13, :lo12:.LCPI17_0]
	and	v5.16b, v5.16b, v0.16b
	and	v6.16b, v6.16b, v0.16b
	addp	v5.16b, v5.16b, v6.16b
	addp	v5.16b, v5.16b, v5.16b
	addp	v5.16b, v5.16b, v5.16b
	fmov	w15, s5
	cbnz	w15, .LBB17_25
	sub	x14, x14, #64
	add	x12, x12, #64
	cmp	x14, #63
	b.hi	.LBB17_23
	b	.LBB17_37
.LBB17_25:
	cmp	x14, #64
	b.lo	.LBB17_37
.LBB17_26:
	movi	v5.16b, #13
	cmeq	v1.16b, v1.16b, v5.16b
	cmeq	v2.16b, v2.16b, v5.16b
	cmeq	v3.16b, v3.16b, v5.16b
	cmeq	v4.16b, v4.16b, v5.16b
	and	v1.16b, v1.16b, v0.16b
	and	v2.16b, v2.16b, v0.16b
	and	v3.16b, v3.16b, v0.16b
	and	v4.16b, v4.16b, v0.16b
	addp	v1.16b, v1.16b, v2.16b
	addp	v2.16b, v4.16b, v3.16b
	addp	v1.16b, v1.16b, v2.16b
	addp	v1.16b, v1.16b, v1.16b
	fmov	x15, d1
	cbnz	x15, .LBB17_50
	sub	x14, x9, x12
	neg	x15, x12
	add	x12, x10, x12
.LBB17_28:
	subs	x16, x14, #64
	b.lo	.LBB17_36
	movi	v5.16b, #13
	ldp	q1, q2, [x12, #-32]
	ldp	q4, q3, [x12], #64
	sub	x15, x15, #64
	mov	x14, x16
	cmeq	v6.16b, v1.16b, v5.16b
	cmeq	v7.16b, v2.16b, v5.16b
	cmeq	v16.16b, v4.16b, v5.16b
	cmeq	v5.16b, v3.16b, v5.16b
	orr	v6.16b, v6.16b, v16.16b
	orr	v5.16b, v7.16b, v5.16b
	and	v6.16b, v6.16b, v0.16b
	and	v5.16b, v5.16b, v0.16b
	addp	v5.16b, v6.16b, v5.16b
	addp	v5.16b, v5.16b, v5.16b
	addp	v5.16b, v5.16b, v5.16b
	fmov	w17, s5
	cbz	w17, .LBB17_28
	neg	x12, x15
	b	.LBB17_26
.LBB17_31:
	mov	x12, x14
	cmp	x15, #32
	b.lo	.LBB17_35
.LBB17_32:
	sub	x13, x22, x12
.LBB17_33:
	movi	v1.16b, #13
	add	x14, x21, x12
	ldp	q2, q3, [x14]
	cmeq	v3.16b, v3.16b, v1.16b
	cmeq	v1.16b, v2.16b, v1.16b
	and	v1.16b, v1.16b, v0.16b
	and	v2.16b, v3.16b, v0.16b
	addp	v1.16b, v1.16b, v2.16b
	addp	v1.16b, v1.16b, v1.16b
	addp	v1.16b, v1.16b, v1.16b
	fmov	w15, s1
	cbnz	w15, .LBB17_43
	sub	x13, x13, #32
	add	x12, x12, #32
	cmp	x13, #31
	b.hi	.LBB17_33
.LBB17_35:
	movi	v1.16b, #13
	ldp	q2, q3, [x8, #-32]
	cmeq	v3.16b, v3.16b, v1.16b
	cmeq	v1.16b, v2.16b, v1.16b
	and	v1.16b, v1.16b, v0.16b
	and	v0.16b, v3.16b, v0.16b
	addp	v0.16b, v1.16b, v0.16b
	b	.LBB17_42
.LBB17_36:
	mov	w12, #64
	sub	x12, x12, x15
.LBB17_37:
	cmp	x14, #32
	b.lo	.LBB17_41
	sub	x14, x22, x12
.LBB17_39:
	movi	v0.16b, #13
	add	x15, x21, x12
	ldp	q1, q2, [x15]
	cmeq	v2.16b, v2.16b, v0.16b
	cmeq	v0.16b, v1.16b, v0.16b
	ldr	q1, [x13, :lo12:.LCPI17_0]
	and	v0.16b, v0.16b, v1.16b
	and	v1.16b, v2.16b, v1.16b
	addp	v0.16b, v0.16b, v1.16b
	addp	v0.16b, v0.16b, v0.16b
	addp	v0.16b, v0.16b, v0.16b
	fmov	w15, s0
	cbnz	w15, .LBB17_43
	sub	x14, x14, #32
	add	x12, x12, #32
	cmp	x14, #31
	b.hi	.LBB17_39
.LBB17_41:
	movi	v0.16b, #13
	ldp	q1, q2, [x8, #-32]
	cmeq	v2.16b, v2.16b, v0.16b
	cmeq	v0.16b, v1.16b, v0.16b
	ldr	q1, [x13, :lo12:.LCPI17_0]
	and	v0.16b, v0.16b, v1.16b
	and	v1.16b, v2.16b, v1.16b
	addp	v0.16b, v0.16b, v1.16b
.LBB17_42:
	addp	v0.16b, v0.16b, v0.16b
	sub	x14, x12, x22
	add	x14, x14, #32
	addp	v0.16b, v0.16b, v0.16b
	fmov	w13, s0
	lsr	x15, x13, x14
	mov	x13, x22
	mov	x14, x13
	cbnz	x15, .LBB17_44
	b	.LBB17_46
.LBB17_43:
	add	x14, x12, #32
.LBB17_44:
	rbit	x13, x15
	clz	x13, x13
	add	x26, x13, x12
	ldrb	w16, [x21, x26]
	cmp	w16, #13
	b.eq	.LBB17_51
	mov	w16, #1
	lsl	x13, x16, x13
	bics	x15, x15, x13
	b.ne	.LBB17_44
.LBB17_46:
	cmp	x14, x22
	mov	x12, x14
	b.lo	.LBB17_15
	b	.LBB17_97
.LBB17_47:
	and	v6.16b, v6.16b, v0.16b
	and	v7.16b, v7.16b, v0.16b
	sub	x14, x13, #64
	and	v16.16b, v16.16b, v0.16b
	and	v5.16b, v5.16b, v0.16b
	addp	v6.16b, v6.16b, v7.16b
	addp	v5.16b, v16.16b, v5.16b
	addp	v5.16b, v6.16b, v5.16b
	addp	v5.16b, v5.16b, v5.16b
	fmov	x15, d5
	cbz	x15, .LBB17_49
	sub	x12, x13, #128
	b	.LBB17_44
.LBB17_49:
	movi	v5.16b, #13
	cmeq	v2.16b, v2.16b, v5.16b
	cmeq	v1.16b, v1.16b, v5.16b
	cmeq	v4.16b, v4.16b, v5.16b
	cmeq	v3.16b, v3.16b, v5.16b
	and	v2.16b, v2.16b, v0.16b
	and	v1.16b, v1.16b, v0.16b
	and	v3.16b, v3.16b, v0.16b
	and	v0.16b, v4.16b, v0.16b
	addp	v1.16b, v2.16b, v1.16b
	addp	v0.16b, v3.16b, v0.16b
	addp	v0.16b, v1.16b, v0.16b
	addp	v0.16b, v0.16b, v0.16b
	fmov	x15, d0
	mov	x12, x14
	mov	x14, x13
	cbnz	x15, .LBB17_44
	b	.LBB17_46
.LBB17_50:
	add	x14, x12, #64
	b	.LBB17_44
.LBB17_51:
	add	x23, x26, #1
	sub	x8, x20, x24
	cmp	x23, x8
	b.hi	.LBB17_87
	ldr	x8, [sp]
	stp	xzr, xzr, [x25, #8]
	add	x0, x8, x24
	sub	x9, x0, x21
	cmp	x9, x23
	b.hs	.LBB17_89
.LBB17_53:
	cmp	x23, #8
	b.lo	.LBB17_55
	add	x9, x24, x8
	sub	x9, x9, x21
	cmp	x9, #32
	b.hs	.LBB17_68
.LBB17_55:
	mov	x9, xzr
.LBB17_56:
	sub	x10, x26, x9
	add	x11, x9, x24
	add	x9, x21, x9
	add	x10, x10, #1
	add	x8, x8, x11
.LBB17_57:
	ldrb	w11, [x9], #1
	subs	x10, x10, #1
	strb	w11, [x8], #1
	b.ne	.LBB17_57
.LBB17_58:
	add	x24, x24, x23
	sub	x8, x22, x23
	add	x21, x21, x23
	mov	x22, xzr
	stp	x24, x20, [sp, #8]
	cbnz	x8, .LBB17_90
	b	.LBB17_6
.LBB17_59:
	mov	x8, xzr
	subs	x9, x22, #8
	b.hs	.LBB17_75
	mov	x9, x21
	mov	x11, x22
.LBB17_61:
	sub	x10, x11, #2
	mov	x12, xzr
	lsr	x10, x10, #1
	add	x11, x10, #1
.LBB17_62:
	ldrb	w10, [x9]
	cmp	w10, #13
	b.ne	.LBB17_70
	ldrb	w10, [x9, #1]
	cbnz	w10, .LBB17_70
	add	x12, x12, #1
	add	x9, x9, #2
	cmp	x11, x12
	b.ne	.LBB17_62
	add	x23, x11, x8
	add	x26, x24, x23
	cmp	x26, x24
	b.hi	.LBB17_71
.LBB17_66:
	cmp	x24, x26
	b.ls	.LBB17_92
	str	x26, [sp, #8]
	b	.LBB17_93
.LBB17_68:
	cmp	x23, #32
	b.hs	.LBB17_80
	mov	x9, xzr
	b	.LBB17_84
.LBB17_70:
	add	x23, x12, x8
	add	x26, x24, x23
	cmp	x26, x24
	b.ls	.LBB17_66
.LBB17_71:
	sub	x8, x20, x24
	cmp	x23, x8
	b.hi	.LBB17_95
	cmp	x24, x26
	b.hs	.LBB17_74
.LBB17_73:
	ldr	x8, [sp]
	mov	w1, #13
	mov	x2, x23
	add	x0, x8, x24
	bl	memset
.LBB17_74:
	stp	x26, x20, [sp, #8]
	b	.LBB17_93
.LBB17_75:
	lsr	x9, x9, #1
	mov	x11, x22
	and	x9, x9, #0x7ffffffffffffffc
	add	x10, x9, #4
	mov	x9, x21
.LBB17_76:
	ldr	x12, [x9]
	mov	x13, #3377751260921868
	orr	x13, x13, #0x1000100010001
	cmp	x12, x13
	b.ne	.LBB17_61
	sub	x11, x11, #8
	add	x9, x9, #8
	add	x8, x8, #4
	cmp	x11, #7
	b.hi	.LBB17_76
	cmp	x11, #2
	b.hs	.LBB17_94
	add	x23, xzr, x10
	add	x26, x24, x23
	cmp	x26, x24
	b.hi	.LBB17_71
	b	.LBB17_66
.LBB17_80:
	add	x12, x8, x24
	and	x10, x23, #0x18
	and	x9, x23, #0xffffffffffffffe0
	add	x11, x21, #16
	add	x12, x12, #16
	and	x13, x23, #0xffffffffffffffe0
.LBB17_81:
	ldp	q0, q1, [x11, #-16]
	subs	x13, x13, #32
	add	x11, x11, #32
	stp	q0, q1, [x12, #-16]
	add	x12, x12, #32
	b.ne	.LBB17_81
	cmp	x23, x9
	b.eq	.LBB17_58
	cbz	x10, .LBB17_56
.LBB17_84:
	mov	x11, x9
	and	x9, x23, #0xfffffffffffffff8
	add	x12, x24, x11
	sub	x10, x11, x9
	add	x11, x21, x11
	add	x12, x8, x12
.LBB17_85:
	ldr	d0, [x11], #8
	adds	x10, x10, #8
	str	d0, [x12], #8
	b.ne	.LBB17_85
	cmp	x23, x9
	b.eq	.LBB17_58
	b	.LBB17_56
.LBB17_87:
	mov	x0, sp
	add	x1, x26, #1
	bl	"std_alloc::vec::Vec::grow_amortized::<#1908c79f2a33ade2>"
	cbz	w0, .LBB17_119
	ldp	x24, x20, [sp, #8]
	ldr	x8, [sp]
	stp	xzr, xzr, [x25, #8]
	add	x0, x8, x24
	sub	x9, x0, x21
	cmp	x9, x23
	b.lo	.LBB17_53
.LBB17_89:
	mov	x1, x21
	mov	x2, x23
	bl	memmove
	add	x24, x24, x23
	sub	x8, x22, x23
	add	x21, x21, x23
	mov	x22, xzr
	stp	x24, x20, [sp, #8]
	cbz	x8, .LBB17_6
.LBB17_90:
	ldrb	w9, [x21]
	mov	x22, x8
	cbnz	w9, .LBB17_6
	sub	x22, x8, #1
	add	x21, x21, #1
	b	.LBB17_6
.LBB17_92:
	mov	x26, x24
.LBB17_93:
	lsl	x8, x23, #1
	mov	x24, x26
	add	x21, x21, x8
	sub	x22, x22, x8
	b	.LBB17_6
.LBB17_94:
	mov	x8, x10
	b	.LBB17_61
.LBB17_95:
	mov	x0, sp
	mov	x1, x23
	bl	"std_alloc::vec::Vec::grow_amortized::<#1908c79f2a33ade2>"
	cbz	w0, .LBB17_119
	ldp	x24, x20, [sp, #8]
	add	x26, x24, x23
	cmp	x24, x26
	b.lo	.LBB17_73
	b	.LBB17_74
.LBB17_97:
	sub	x8, x20, x24
	cmp	x22, x8
	b.hi	.LBB17_113
.LBB17_98:
	ldr	x8, [sp]
	add	x23, x24, x22
	stp	xzr, xzr, [x25, #8]
	add	x0, x8, x24
	sub	x9, x0, x21
	cmp	x9, x22
	b.hs	.LBB17_116
	cmp	x22, #8
	b.lo	.LBB17_101
	add	x9, x24, x8
	sub	x9, x9, x21
	cmp	x9, #32
	b.hs	.LBB17_104
.LBB17_101:
	mov	x9, xzr
.LBB17_102:
	add	x11, x9, x24
	sub	x10, x22, x9
	add	x9, x21, x9
	add	x8, x8, x11
.LBB17_103:
	ldrb	w11, [x9], #1
	subs	x10, x10, #1
	strb	w11, [x8], #1
	b.ne	.LBB17_103
	b	.LBB17_117
.LBB17_104:
	cmp	x22, #32
	b.hs	.LBB17_106
	mov	x9, xzr
	b	.LBB17_110
.LBB17_106:
	add	x12, x24, x8
	and	x10, x22, #0x18
	and	x9, x22, #0xffffffffffffffe0
	add	x11, x21, #16
	add	x12, x12, #16
	and	x13, x22, #0xffffffffffffffe0
.LBB17_107:
	ldp	q0, q1, [x11, #-16]
	subs	x13, x13, #32
	add	x11, x11, #32
	stp	q0, q1, [x12, #-16]
	add	x12, x12, #32
	b.ne	.LBB17_107
	cmp	x22, x9
	b.eq	.LBB17_117
	cbz	x10, .LBB17_102
.LBB17_110:
	mov	x11, x9
	and	x9, x22, #0xfffffffffffffff8
	add	x12, x24, x11
	sub	x10, x11, x9
	add	x11, x21, x11
	add	x12, x8, x12
.LBB17_111:
	ldr	d0, [x11], #8
	adds	x10, x10, #8
	str	d0, [x12], #8
	b.ne	.LBB17_111
	cmp	x22, x9
	b.eq	.LBB17_117
	b	.LBB17_102
.LBB17_113:
	mov	x0, sp
	mov	x1, x22
	bl	"std_alloc::vec::Vec::grow_amortized::<#1908c79f2a33ade2>"
	cbz	w0, .LBB17_119
	ldp	x24, x20, [sp, #8]
	b	.LBB17_98
.LBB17_115:
	ldr	x8, [sp]
	mov	x23, x24
	stp	xzr, xzr, [x25, #8]
	add	x0, x8, x24
.LBB17_116:
	mov	x1, x21
	mov	x2, x22
	bl	memmove
.LBB17_117:
	stp	x23, x20, [sp, #8]
	ldr	q0, [sp]
	strb	wzr, [x19]
	str	x20, [x19, #24]
	stur	q0, [x19, #8]
.LBB17_118:
	ldp	x20, x19, [sp, #96]
	ldp	x22, x21, [sp, #80]
	ldp	x24, x23, [sp, #64]
	ldp	x26, x25, [sp, #48]
	ldp	x29, x30, [sp, #32]
	add	sp, sp, #112
	ret
.LBB17_119:
	ldr	x8, [sp, #16]
	cbz	x8, .LBB17_3
	ldr	x0, [sp]
	bl	rattle_dealloc
	b	.LBB17_3
.Lfunc_end17:
	.size	"unftp_control_message::sent::unescape", .Lfunc_end17-"unftp_control_message::sent::unescape"

	.section	".text.unftp_control_message::fields::optional_text","ax",@progbits
	.p2align	2
	.type	"unftp_control_message::fields::optional_text",@function
"unftp_control_message::fields::optional_text":
	sub	sp, sp, #128
	mov	x8, x1
	movi	v0.2d, #0000000000000000
	mov	x1, xzr
	ldrb	w10, [x8, #24]
	mov	w9, #1
	stp	x29, x30, [sp, #80]
	stp	x22, x21, [sp, #96]
	add	x29, sp, #80
	cmp	w10, #2
	stp	x20, x19, [sp, #112]
	stp	q0, q0, [sp, #32]
	b.gt	.LBB18_11
	cbz	w10, .LBB18_14
	cmp	w10, #1
	mov	x19, x1
	mov	x10, x1
	mov	x11, x1
	b.eq	.LBB18_30
	ldr	x19, [x8, #40]
	cbz	x19, .LBB18_17
	tbnz	x19, #63, .LBB18_15
	ldr	x20, [x8, #32]
	mov	x21, x0
	mov	x0, x19
	mov	w1, #1
	bl	rattle_alloc
	mov	x8, x0
	mov	x0, x21
	tbz	w8, #0, .LBB18_15
	sub	x8, x1, x20
	cmp	x8, x19
	b.hs	.LBB18_18
	cmp	x19, #8
	mov	x8, xzr
	b.lo	.LBB18_27
	sub	x9, x1, x20
	cmp	x9, #32
	b.lo	.LBB18_27
	cmp	x19, #32
	b.hs	.LBB18_20
	mov	x8, xzr
	b	.LBB18_24
.LBB18_11:
	sub	w10, w10, #4
	mov	x19, x1
	mov	x11, x1
	cmp	w10, #2
	mov	x10, x1
	b.lo	.LBB18_30
	ldrb	w9, [x8, #32]
	ldur	q0, [x8, #40]
	mov	x20, x0
	add	x0, sp, #32
	add	x1, sp, #8
	str	x9, [sp, #8]
	stur	q0, [sp, #16]
	bl	"unftp_control_message::sent::Sent::to_text"
	ldrb	w8, [sp, #32]
	cbz	w8, .LBB18_16
	movi	v0.2d, #0000000000000000
	mov	w8, #769
	strh	w8, [x20]
	stur	q0, [x20, #8]
	stur	q0, [x20, #24]
	ldp	x20, x19, [sp, #112]
	ldp	x22, x21, [sp, #96]
	ldp	x29, x30, [sp, #80]
	add	sp, sp, #128
	ret
.LBB18_14:
	mov	x1, xzr
	mov	x19, xzr
	mov	x10, xzr
	mov	w9, wzr
	mov	x11, xzr
	b	.LBB18_30
.LBB18_15:
	movi	v0.2d, #0000000000000000
	mov	w8, #769
	strh	w8, [x0]
	stur	q0, [x0, #8]
	stur	q0, [x0, #24]
	ldp	x20, x19, [sp, #112]
	ldp	x22, x21, [sp, #96]
	ldp	x29, x30, [sp, #80]
	add	sp, sp, #128
	ret
.LBB18_16:
	ldp	x1, x19, [sp, #40]
	mov	w9, wzr
	ldr	x10, [sp, #56]
	mov	w11, #1
	mov	x0, x20
	b	.LBB18_30
.LBB18_17:
	mov	x10, xzr
	mov	w9, wzr
	sub	x1, x29, #1
	mov	w11, #1
	b	.LBB18_30
.LBB18_18:
	mov	x0, x1
	mov	x22, x1
	mov	x1, x20
	mov	x2, x19
	bl	memmove
	mov	x1, x22
	mov	x0, x21
.LBB18_19:
	mov	w9, wzr
	mov	w11, #1
	b	.LBB18_29
.LBB18_20:
	and	x9, x19, #0x18
	and	x8, x19, #0x7fffffffffffffe0
	add	x10, x20, #16
	add	x11, x1, #16
	and	x12, x19, #0x7fffffffffffffe0
.LBB18_21:
	ldp	q0, q1, [x10, #-16]
	subs	x12, x12, #32
	add	x10, x10, #32
	stp	q0, q1, [x11, #-16]
	add	x11, x11, #32
	b.ne	.LBB18_21
	cmp	x19, x8
	b.eq	.LBB18_19
	cbz	x9, .LBB18_27
.LBB18_24:
	mov	x9, x8
	and	x8, x19, #0x7ffffffffffffff8
.LBB18_25:
	ldr	d0, [x20, x9]
	str	d0, [x1, x9]
	add	x9, x9, #8
	cmp	x8, x9
	b.ne	.LBB18_25
	cmp	x19, x8
	b.eq	.LBB18_19
.LBB18_27:
	ldrb	w9, [x20, x8]
	mov	w11, #1
	strb	w9, [x1, x8]
	add	x8, x8, #1
	cmp	x19, x8
	b.ne	.LBB18_27
	mov	w9, wzr
.LBB18_29:
	mov	x10, x19
.LBB18_30:
	strb	w9, [x0]
	strb	wzr, [x0, #1]
	stp	x11, x1, [x0, #8]
	stp	x19, x10, [x0, #24]
	ldp	x20, x19, [sp, #112]
	ldp	x22, x21, [sp, #96]
	ldp	x29, x30, [sp, #80]
	add	sp, sp, #128
	ret
.Lfunc_end18:
	.size	"unftp_control_message::fields::optional_text", .Lfunc_end18-"unftp_control_message::fields::optional_text"

	.section	".text.unftp_control_message::sent::Sent::to_text","ax",@progbits
	.p2align	2
	.type	"unftp_control_message::sent::Sent::to_text",@function
"unftp_control_message::sent::Sent::to_text":
	sub	sp, sp, #176
	movi	v0.2d, #0000000000000000
	mov	x8, x1
	stp	x20, x19, [sp, #160]
	ldp	x1, x2, [x1, #8]
	ldrb	w8, [x8]
	mov	x19, x0
	stp	x29, x30, [sp, #112]
	add	x29, sp, #112
	str	x23, [sp, #128]
	stp	x22, x21, [sp, #144]
	stp	q0, q0, [sp]
	cbz	x2, .LBB19_4
	cbz	w8, .LBB19_5
	mov	x0, sp
	bl	"unftp_control_message::sent::unescape"
	ldrb	w8, [sp]
	cbz	w8, .LBB19_7
	mov	w8, #1
	stp	xzr, xzr, [x19, #16]
	strb	w8, [x19]
	str	xzr, [x19, #8]
	ldp	x20, x19, [sp, #160]
	ldr	x23, [sp, #128]
	ldp	x22, x21, [sp, #144]
	ldp	x29, x30, [sp, #112]
	add	sp, sp, #176
	ret
.LBB19_4:
	add	x8, x29, #31
	strb	wzr, [x19]
	stp	xzr, xzr, [x19, #16]
	str	x8, [x19, #8]
	ldp	x20, x19, [sp, #160]
	ldr	x23, [sp, #128]
	ldp	x22, x21, [sp, #144]
	ldp	x29, x30, [sp, #112]
	add	sp, sp, #176
	ret
.LBB19_5:
	sub	x0, x29, #24
	stp	xzr, xzr, [x29, #-16]
	mov	x21, x1
	stur	xzr, [x29, #-24]
	mov	x20, x2
	stp	q0, q0, [sp, #48]
	bl	"core::str::utf8::from_utf8"
	ldurb	w8, [x29, #-24]
	cbz	w8, .LBB19_10
	add	x0, sp, #48
	mov	x1, x21
	mov	x2, x20
	bl	"unftp_control_message::utf8::replaced"
	ldrb	w23, [sp, #48]
	ldr	x20, [sp, #56]
	b	.LBB19_35
.LBB19_7:
	movi	v0.2d, #0000000000000000
	ldp	x20, x21, [sp, #8]
	ldr	x22, [sp, #24]
	sub	x0, x29, #24
	stp	xzr, xzr, [x29, #-24]
	stur	xzr, [x29, #-8]
	mov	x1, x20
	mov	x2, x21
	stp	q0, q0, [sp, #48]
	bl	"core::str::utf8::from_utf8"
	ldurb	w8, [x29, #-24]
	cmp	w8, #1
	b.ne	.LBB19_14
	add	x0, sp, #48
	mov	x1, x20
	mov	x2, x21
	bl	"unftp_control_message::utf8::replaced"
	cbz	x22, .LBB19_15
	mov	x0, x20
	bl	rattle_dealloc
	b	.LBB19_15
.LBB19_10:
	ldp	x22, x21, [x29, #-16]
	cbz	x21, .LBB19_16
	tbnz	x21, #63, .LBB19_23
	mov	x0, x21
	mov	w1, #1
	mov	w23, #1
	bl	rattle_alloc
	tbz	w0, #0, .LBB19_24
	mov	x20, x1
	b	.LBB19_17
.LBB19_14:
	strb	wzr, [sp, #48]
	stp	x20, x21, [sp, #56]
	str	x22, [sp, #72]
.LBB19_15:
	ldr	q0, [sp, #64]
	ldrb	w23, [sp, #48]
	ldr	x20, [sp, #56]
	b	.LBB19_36
.LBB19_16:
	add	x20, x29, #31
.LBB19_17:
	sub	x9, x20, x22
	cmp	x9, x21
	b.hs	.LBB19_22
	cmp	x21, #8
	mov	x8, xzr
	b.lo	.LBB19_31
	cmp	x9, #32
	b.lo	.LBB19_31
	cmp	x21, #32
	b.hs	.LBB19_25
	mov	x8, xzr
	b	.LBB19_29
.LBB19_22:
	mov	x0, x20
	mov	x1, x22
	mov	x2, x21
	bl	memmove
	b	.LBB19_33
.LBB19_23:
	mov	x20, xzr
	mov	x21, xzr
	mov	w23, #1
	b	.LBB19_34
.LBB19_24:
	mov	x20, xzr
	mov	x21, xzr
	b	.LBB19_34
.LBB19_25:
	and	x9, x21, #0x18
	and	x8, x21, #0xffffffffffffffe0
	add	x10, x22, #16
	add	x11, x20, #16
	and	x12, x21, #0xffffffffffffffe0
.LBB19_26:
	ldp	q0, q1, [x10, #-16]
	subs	x12, x12, #32
	add	x10, x10, #32
	stp	q0, q1, [x11, #-16]
	add	x11, x11, #32
	b.ne	.LBB19_26
	cmp	x21, x8
	b.eq	.LBB19_33
	cbz	x9, .LBB19_31
.LBB19_29:
	mov	x9, x8
	and	x8, x21, #0xfffffffffffffff8
.LBB19_30:
	ldr	d0, [x22, x9]
	str	d0, [x20, x9]
	add	x9, x9, #8
	cmp	x8, x9
	b.ne	.LBB19_30
	b	.LBB19_32
.LBB19_31:
	ldrb	w9, [x22, x8]
	strb	w9, [x20, x8]
	add	x8, x8, #1
.LBB19_32:
	cmp	x21, x8
	b.ne	.LBB19_31
.LBB19_33:
	mov	w23, wzr
.LBB19_34:
	stp	x21, x21, [sp, #64]
.LBB19_35:
	ldr	q0, [sp, #64]
.LBB19_36:
	str	q0, [sp, #32]
	ldr	q0, [sp, #32]
	strb	w23, [x19]
	str	x20, [x19, #8]
	str	q0, [x19, #16]
	ldp	x20, x19, [sp, #160]
	ldr	x23, [sp, #128]
	ldp	x22, x21, [sp, #144]
	ldp	x29, x30, [sp, #112]
	add	sp, sp, #176
	ret
.Lfunc_end19:
	.size	"unftp_control_message::sent::Sent::to_text", .Lfunc_end19-"unftp_control_message::sent::Sent::to_text"

	.section	".text.unftp_control_message::utf8::replaced","ax",@progbits
	.p2align	2
	.type	"unftp_control_message::utf8::replaced",@function
"unftp_control_message::utf8::replaced":
	sub	sp, sp, #128
	adds	x8, x2, #32
	stp	x22, x21, [sp, #96]
	stp	x20, x19, [sp, #112]
	csinv	x22, x8, xzr, lo
	mov	x19, x0
	stp	x29, x30, [sp, #48]
	add	x29, sp, #48
	str	x25, [sp, #64]
	stp	x24, x23, [sp, #80]
	tbnz	x22, #63, .LBB20_30
	mov	x21, x1
	mov	x0, x22
	mov	w1, #1
	mov	x20, x2
	bl	rattle_alloc
	tbz	w0, #0, .LBB20_30
	stp	x1, xzr, [sp]
	str	x22, [sp, #16]
	cbnz	x20, .LBB20_5
.LBB20_3:
	ldr	q0, [sp]
	ldr	x8, [sp, #16]
	strb	wzr, [x19]
	stur	q0, [x19, #8]
	str	x8, [x19, #24]
	b	.LBB20_31
.LBB20_4:
	sub	x20, x20, x23
	add	x21, x21, x23
	cbz	x20, .LBB20_3
.LBB20_5:
	add	x0, sp, #24
	mov	x1, x21
	mov	x2, x20
	stp	xzr, xzr, [sp, #24]
	str	xzr, [sp, #40]
	bl	"core::str::utf8::from_utf8"
	ldrb	w8, [sp, #24]
	mov	x23, x20
	mov	x22, x20
	cbz	w8, .LBB20_7
	ldr	x22, [sp, #32]
	ldrb	w8, [sp, #40]
	ldrb	w9, [sp, #41]
	sub	x10, x20, x22
	cmp	w8, #1
	csel	x8, x9, x10, eq
	cmp	x10, x8
	csel	x9, x10, x8, lo
	cmp	x8, #0
	csinc	x8, x9, xzr, ne
	add	x23, x8, x22
.LBB20_7:
	ldp	x25, x24, [sp, #8]
	sub	x8, x24, x25
	cmp	x22, x8
	b.hi	.LBB20_24
	ldr	x8, [sp]
	add	x0, x8, x25
	sub	x9, x0, x21
	cmp	x9, x22
	b.hs	.LBB20_26
.LBB20_9:
	cmp	x22, #8
	b.lo	.LBB20_11
	add	x9, x25, x8
	sub	x9, x9, x21
	cmp	x9, #32
	b.hs	.LBB20_15
.LBB20_11:
	mov	x9, xzr
.LBB20_12:
	add	x11, x9, x25
	sub	x10, x22, x9
	add	x9, x21, x9
	add	x8, x8, x11
.LBB20_13:
	ldrb	w11, [x9], #1
	subs	x10, x10, #1
	strb	w11, [x8], #1
	b.ne	.LBB20_13
.LBB20_14:
	add	x8, x25, x22
	cmp	x23, x22
	stp	x8, x24, [sp, #8]
	b.eq	.LBB20_4
	b	.LBB20_27
.LBB20_15:
	cmp	x22, #32
	b.hs	.LBB20_17
	mov	x9, xzr
	b	.LBB20_21
.LBB20_17:
	add	x12, x8, x25
	and	x10, x22, #0x18
	and	x9, x22, #0xffffffffffffffe0
	add	x11, x21, #16
	add	x12, x12, #16
	and	x13, x22, #0xffffffffffffffe0
.LBB20_18:
	ldp	q0, q1, [x11, #-16]
	subs	x13, x13, #32
	add	x11, x11, #32
	stp	q0, q1, [x12, #-16]
	add	x12, x12, #32
	b.ne	.LBB20_18
	cmp	x22, x9
	b.eq	.LBB20_14
	cbz	x10, .LBB20_12
.LBB20_21:
	mov	x11, x9
	and	x9, x22, #0xfffffffffffffff8
	add	x12, x25, x11
	sub	x10, x11, x9
	add	x11, x21, x11
	add	x12, x8, x12
.LBB20_22:
	ldr	d0, [x11], #8
	adds	x10, x10, #8
	str	d0, [x12], #8
	b.ne	.LBB20_22
	cmp	x22, x9
	b.eq	.LBB20_14
	b	.LBB20_12
.LBB20_24:
	mov	x0, sp
	mov	x1, x22
	bl	"std_alloc::vec::Vec::grow_amortized::<#1908c79f2a33ade2>"
	cbz	w0, .LBB20_28
	ldp	x25, x24, [sp, #8]
	ldr	x8, [sp]
	add	x0, x8, x25
	sub	x9, x0, x21
	cmp	x9, x22
	b.lo	.LBB20_9
.LBB20_26:
	mov	x1, x21
	mov	x2, x22
	bl	memmove
	add	x8, x25, x22
	cmp	x23, x22
	stp	x8, x24, [sp, #8]
	b.eq	.LBB20_4
.LBB20_27:
	mov	x0, sp
	bl	"std_alloc::string::add_wide::<#c434390fa3fa721d>"
	tst	w0, #0xff
	b.eq	.LBB20_4
.LBB20_28:
	ldr	x8, [sp, #16]
	cbz	x8, .LBB20_30
	ldr	x0, [sp]
	bl	rattle_dealloc
.LBB20_30:
	mov	w8, #1
	stp	xzr, xzr, [x19, #16]
	strb	w8, [x19]
	str	xzr, [x19, #8]
.LBB20_31:
	ldp	x20, x19, [sp, #112]
	ldr	x25, [sp, #64]
	ldp	x22, x21, [sp, #96]
	ldp	x24, x23, [sp, #80]
	ldp	x29, x30, [sp, #48]
	add	sp, sp, #128
	ret
.Lfunc_end20:
	.size	"unftp_control_message::utf8::replaced", .Lfunc_end20-"unftp_control_message::utf8::replaced"

	.section	".text.std_alloc::string::add_wide::<#c434390fa3fa721d>","ax",@progbits
	.p2align	2
	.type	"std_alloc::string::add_wide::<#c434390fa3fa721d>",@function
"std_alloc::string::add_wide::<#c434390fa3fa721d>":
	stp	x29, x30, [sp, #-32]!
	ldp	x10, x9, [x0, #8]
	mov	x29, sp
	str	x19, [sp, #16]
	sub	x8, x9, x10
	cmp	x8, #2
	b.ls	.LBB21_2
.LBB21_1:
	ldr	x11, [x0]
	mov	w8, wzr
	mov	w12, #49135
	mov	w14, #189
	add	x13, x11, x10
	add	x10, x10, #3
	strh	w12, [x13]
	strb	w14, [x13, #2]
	stp	x11, x10, [x0]
	str	x9, [x0, #16]
	ldr	x19, [sp, #16]
	mov	w0, w8
	ldp	x29, x30, [sp], #32
	ret
.LBB21_2:
	mov	w1, #3
	mov	x19, x0
	bl	"std_alloc::vec::Vec::grow_amortized::<#1908c79f2a33ade2>"
	cbz	w0, .LBB21_4
	ldp	x10, x9, [x19, #8]
	mov	x0, x19
	b	.LBB21_1
.LBB21_4:
	mov	w8, #1
	ldr	x19, [sp, #16]
	mov	w0, w8
	ldp	x29, x30, [sp], #32
	ret
.Lfunc_end21:
	.size	"std_alloc::string::add_wide::<#c434390fa3fa721d>", .Lfunc_end21-"std_alloc::string::add_wide::<#c434390fa3fa721d>"

	.section	".text.unftp_control_message::fields::arguments","ax",@progbits
	.p2align	2
	.type	"unftp_control_message::fields::arguments",@function
"unftp_control_message::fields::arguments":
	sub	sp, sp, #128
	movi	v0.2d, #0000000000000000
	ldrb	w10, [x1, #24]
	stp	x20, x19, [sp, #112]
	mov	x8, x1
	mov	x19, xzr
	mov	w9, #1
	cmp	w10, #2
	stp	x29, x30, [sp, #80]
	add	x29, sp, #80
	stp	x22, x21, [sp, #96]
	stp	q0, q0, [sp, #32]
	b.gt	.LBB22_11
	cbz	w10, .LBB22_14
	cmp	w10, #1
	mov	x10, x19
	mov	x1, x19
	b.eq	.LBB22_26
	ldr	x19, [x8, #40]
	cbz	x19, .LBB22_15
	tbnz	x19, #63, .LBB22_16
	ldr	x20, [x8, #32]
	mov	x21, x0
	mov	x0, x19
	mov	w1, #1
	bl	rattle_alloc
	mov	x8, x0
	mov	x0, x21
	tbz	w8, #0, .LBB22_16
	sub	x8, x1, x20
	cmp	x8, x19
	b.hs	.LBB22_18
	cmp	x19, #8
	mov	x8, xzr
	b.lo	.LBB22_28
	sub	x9, x1, x20
	cmp	x9, #32
	b.lo	.LBB22_28
	cmp	x19, #32
	b.hs	.LBB22_19
	mov	x8, xzr
	b	.LBB22_23
.LBB22_11:
	sub	w10, w10, #4
	mov	x1, x19
	cmp	w10, #2
	mov	x10, x19
	b.lo	.LBB22_26
	ldrb	w9, [x8, #32]
	ldur	q0, [x8, #40]
	mov	x20, x0
	add	x0, sp, #32
	add	x1, sp, #8
	str	x9, [sp, #8]
	stur	q0, [sp, #16]
	bl	"unftp_control_message::sent::Sent::to_text"
	ldrb	w8, [sp, #32]
	cbz	w8, .LBB22_17
	mov	w8, #769
	stp	xzr, xzr, [x20, #16]
	strh	w8, [x20]
	str	xzr, [x20, #8]
	ldp	x20, x19, [sp, #112]
	ldp	x22, x21, [sp, #96]
	ldp	x29, x30, [sp, #80]
	add	sp, sp, #128
	ret
.LBB22_14:
	mov	x19, xzr
.LBB22_15:
	mov	x10, xzr
	mov	w9, wzr
	sub	x1, x29, #1
	b	.LBB22_26
.LBB22_16:
	mov	w8, #769
	stp	xzr, xzr, [x0, #16]
	strh	w8, [x0]
	str	xzr, [x0, #8]
	ldp	x20, x19, [sp, #112]
	ldp	x22, x21, [sp, #96]
	ldp	x29, x30, [sp, #80]
	add	sp, sp, #128
	ret
.LBB22_17:
	ldp	x1, x19, [sp, #40]
	mov	w9, wzr
	ldr	x10, [sp, #56]
	mov	x0, x20
	b	.LBB22_26
.LBB22_18:
	mov	x0, x1
	mov	x22, x1
	mov	x1, x20
	mov	x2, x19
	bl	memmove
	mov	x1, x22
	mov	x0, x21
	b	.LBB22_25
.LBB22_19:
	and	x9, x19, #0x18
	and	x8, x19, #0x7fffffffffffffe0
	add	x10, x20, #16
	add	x11, x1, #16
	and	x12, x19, #0x7fffffffffffffe0
.LBB22_20:
	ldp	q0, q1, [x10, #-16]
	subs	x12, x12, #32
	add	x10, x10, #32
	stp	q0, q1, [x11, #-16]
	add	x11, x11, #32
	b.ne	.LBB22_20
	cmp	x19, x8
	b.eq	.LBB22_25
	cbz	x9, .LBB22_28
.LBB22_23:
	mov	x9, x8
	and	x8, x19, #0x7ffffffffffffff8
.LBB22_24:
	ldr	d0, [x20, x9]
	str	d0, [x1, x9]
	add	x9, x9, #8
	cmp	x8, x9
	b.ne	.LBB22_24
	b	.LBB22_27
.LBB22_25:
	mov	w9, wzr
	mov	x10, x19
.LBB22_26:
	strb	w9, [x0]
	strb	wzr, [x0, #1]
	stp	x1, x19, [x0, #8]
	str	x10, [x0, #24]
	ldp	x20, x19, [sp, #112]
	ldp	x22, x21, [sp, #96]
	ldp	x29, x30, [sp, #80]
	add	sp, sp, #128
	ret
.LBB22_27:
	cmp	x19, x8
	b.eq	.LBB22_25
.LBB22_28:
	ldrb	w9, [x20, x8]
	strb	w9, [x1, x8]
	add	x8, x8, #1
	b	.LBB22_27
.Lfunc_end22:
	.size	"unftp_control_message::fields::arguments", .Lfunc_end22-"unftp_control_message::fields::arguments"

	.section	".text.unlikely.core::fmt::formatter::Formatter::write_indented::<#a09238b4ff3d99c5>","ax",@progbits
	.p2align	2
	.type	"core::fmt::formatter::Formatter::write_indented::<#a09238b4ff3d99c5>",@function
"core::fmt::formatter::Formatter::write_indented::<#a09238b4ff3d99c5>":
	stp	x29, x30, [sp, #-80]!
	str	x25, [sp, #16]
	mov	x29, sp
	stp	x24, x23, [sp, #32]
	stp	x22, x21, [sp, #48]
	stp	x20, x19, [sp, #64]
	cbz	x2, .LBB23_16
	mov	x21, x2
	mov	x20, x1
	mov	x19, x0
	mov	x8, xzr
	mov	x24, xzr
	b	.LBB23_4
.LBB23_2:
	mov	w23, #1
	add	x1, x20, x25
	mov	x0, x19
	mov	x2, x22
	strb	w23, [x19, #56]
	bl	"core::fmt::formatter::Formatter::write_raw::<#a09238b4ff3d99c5>"
	and	w9, w0, #0xff
	mov	x8, x24
	tbnz	w9, #0, .LBB23_18
.LBB23_3:
	cmp	x24, x21
	b.eq	.LBB23_10
.LBB23_4:
	ldrb	w10, [x20, x24]
	mov	x9, x24
	add	x24, x24, #1
	cmp	w10, #10
	b.ne	.LBB23_3
	subs	x22, x24, x8
	csel	x25, xzr, x8, lo
	cmp	x8, x9
	mov	x8, x24
	b.hi	.LBB23_3
	ldrb	w8, [x19, #56]
	cmp	w8, #1
	b.ne	.LBB23_2
	ldr	x23, [x19, #48]
	cbz	x23, .LBB23_2
.LBB23_8:
	adrp	x1, .Lstatic.71
	add	x1, x1, :lo12:.Lstatic.71
	mov	x0, x19
	mov	w2, #4
	bl	"core::fmt::formatter::Formatter::write_raw::<#a09238b4ff3d99c5>"
	and	w8, w0, #0xff
	tbnz	w8, #0, .LBB23_17
	subs	x23, x23, #1
	b.ne	.LBB23_8
	b	.LBB23_2
.LBB23_10:
	cmp	x8, x21
	csel	x22, xzr, x8, hi
	subs	x8, x21, x8
	csel	x21, xzr, x8, lo
	b.ls	.LBB23_16
	ldrb	w8, [x19, #56]
	cmp	w8, #1
	b.ne	.LBB23_15
	ldr	x23, [x19, #48]
	cbz	x23, .LBB23_15
.LBB23_13:
	adrp	x1, .Lstatic.71
	add	x1, x1, :lo12:.Lstatic.71
	mov	x0, x19
	mov	w2, #4
	bl	"core::fmt::formatter::Formatter::write_raw::<#a09238b4ff3d99c5>"
	and	w8, w0, #0xff
	tbnz	w8, #0, .LBB23_17
	subs	x23, x23, #1
	b.ne	.LBB23_13
.LBB23_15:
	add	x1, x20, x22
	mov	x0, x19
	mov	x2, x21
	strb	wzr, [x19, #56]
	ldp	x20, x19, [sp, #64]
	ldp	x22, x21, [sp, #48]
	ldr	x25, [sp, #16]
	ldp	x24, x23, [sp, #32]
	ldp	x29, x30, [sp], #80
	b	"core::fmt::formatter::Formatter::write_raw::<#a09238b4ff3d99c5>"
.LBB23_16:
	mov	w23, wzr
	b	.LBB23_18
.LBB23_17:
	mov	w23, #1
.LBB23_18:
	mov	w0, w23
	ldp	x20, x19, [sp, #64]
	ldp	x22, x21, [sp, #48]
	ldr	x25, [sp, #16]
	ldp	x24, x23, [sp, #32]
	ldp	x29, x30, [sp], #80
	ret
.Lfunc_end23:
	.size	"core::fmt::formatter::Formatter::write_indented::<#a09238b4ff3d99c5>", .Lfunc_end23-"core::fmt::formatter::Formatter::write_indented::<#a09238b4ff3d99c5>"

	.section	".text.core::fmt::formatter::Formatter::write_raw::<#a09238b4ff3d99c5>","ax",@progbits
	.p2align	2
	.type	"core::fmt::formatter::Formatter::write_raw::<#a09238b4ff3d99c5>",@function
"core::fmt::formatter::Formatter::write_raw::<#a09238b4ff3d99c5>":
	cbz	x2, .LBB24_21
	mov	x9, xzr
	b	.LBB24_4
.LBB24_2:
	mov	w8, #1
.LBB24_3:
	add	x9, x8, x9
	cmp	x9, x2
	b.hs	.LBB24_21
.LBB24_4:
	ldrsb	w8, [x1, x9]
	tbz	w8, #31, .LBB24_2
	add	x10, x9, #1
	cmp	x2, x10
	b.ls	.LBB24_28
	ldrsb	w11, [x1, x10]
	tbz	w11, #31, .LBB24_28
	and	w10, w8, #0xff
	cmn	w11, #64
	mov	w8, #-64
	csel	w11, w11, w8, lo
	cmp	w10, #194
	mov	w8, #1
	b.lo	.LBB24_32
	and	w11, w11, #0x7f
	cmp	w11, #63
	b.hi	.LBB24_32
	cmp	w10, #224
	b.hs	.LBB24_11
	mov	w8, #2
	b	.LBB24_3
.LBB24_11:
	add	x8, x9, #2
	cmp	x2, x8
	b.ls	.LBB24_28
	ldrsb	w8, [x1, x8]
	cmn	w8, #65
	b.gt	.LBB24_28
	cmp	w10, #239
	b.hi	.LBB24_17
	lsl	w8, w10, #12
	add	w8, w8, w11, lsl #6
	sub	w8, w8, #224, lsl #12
	cmp	w8, #2048
	b.lo	.LBB24_28
	lsr	w8, w8, #11
	cmp	w8, #27
	mov	w8, #3
	b.lo	.LBB24_3
	cmp	w10, #238
	b.hs	.LBB24_3
	b	.LBB24_28
.LBB24_17:
	add	x8, x9, #3
	cmp	x2, x8
	b.ls	.LBB24_28
	ldrsb	w8, [x1, x8]
	cmn	w8, #65
	b.gt	.LBB24_28
	lsl	w8, w10, #18
	mov	w10, #-62980096
	add	w8, w8, w11, lsl #12
	add	w8, w8, w10
	lsr	w8, w8, #20
	cbnz	w8, .LBB24_28
	mov	w8, #4
	b	.LBB24_3
.LBB24_21:
	stp	x29, x30, [sp, #-48]!
	stp	x22, x21, [sp, #16]
	mov	x22, x0
	mov	x29, sp
	stp	x20, x19, [sp, #32]
	ldp	x9, x19, [x22, #8]!
	sub	x8, x19, x9
	cmp	x2, x8
	b.hi	.LBB24_42
.LBB24_22:
	ldr	x20, [x0]
	add	x21, x9, x2
	stp	xzr, xzr, [x22]
	add	x8, x20, x9
	sub	x10, x8, x1
	cmp	x10, x2
	b.hs	.LBB24_29
	cmp	x2, #8
	b.lo	.LBB24_25
	add	x8, x9, x20
	sub	x8, x8, x1
	cmp	x8, #32
	b.hs	.LBB24_33
.LBB24_25:
	mov	x8, xzr
.LBB24_26:
	add	x10, x8, x9
	sub	x9, x2, x8
	add	x8, x1, x8
	add	x10, x20, x10
.LBB24_27:
	ldrb	w11, [x8], #1
	subs	x9, x9, #1
	strb	w11, [x10], #1
	b.ne	.LBB24_27
	b	.LBB24_30
.LBB24_28:
	mov	w0, #1
	ret
.LBB24_29:
	mov	x22, x0
	mov	x0, x8
	bl	memmove
	mov	x0, x22
.LBB24_30:
	mov	w8, wzr
	stp	x20, x21, [x0]
	str	x19, [x0, #16]
.LBB24_31:
	ldp	x20, x19, [sp, #32]
	ldp	x22, x21, [sp, #16]
	ldp	x29, x30, [sp], #48
.LBB24_32:
	mov	w0, w8
	ret
.LBB24_33:
	cmp	x2, #32
	b.hs	.LBB24_35
	mov	x8, xzr
	b	.LBB24_39
.LBB24_35:
	add	x12, x9, x20
	and	x10, x2, #0x18
	and	x8, x2, #0xffffffffffffffe0
	add	x11, x1, #16
	add	x12, x12, #16
	and	x13, x2, #0xffffffffffffffe0
.LBB24_36:
	ldp	q0, q1, [x11, #-16]
	subs	x13, x13, #32
	add	x11, x11, #32
	stp	q0, q1, [x12, #-16]
	add	x12, x12, #32
	b.ne	.LBB24_36
	cmp	x2, x8
	b.eq	.LBB24_30
	cbz	x10, .LBB24_26
.LBB24_39:
	mov	x11, x8
	and	x8, x2, #0xfffffffffffffff8
	add	x12, x9, x11
	sub	x10, x11, x8
	add	x11, x1, x11
	add	x12, x20, x12
.LBB24_40:
	ldr	d0, [x11], #8
	adds	x10, x10, #8
	str	d0, [x12], #8
	b.ne	.LBB24_40
	cmp	x2, x8
	b.eq	.LBB24_30
	b	.LBB24_26
.LBB24_42:
	mov	x20, x1
	mov	x1, x2
	mov	x19, x0
	mov	x21, x2
	bl	"std_alloc::vec::Vec::grow_amortized::<#1908c79f2a33ade2>"
	cbz	w0, .LBB24_44
	mov	x0, x19
	ldp	x9, x19, [x19, #8]
	mov	x2, x21
	mov	x1, x20
	b	.LBB24_22
.LBB24_44:
	mov	w8, #1
	b	.LBB24_31
.Lfunc_end24:
	.size	"core::fmt::formatter::Formatter::write_raw::<#a09238b4ff3d99c5>", .Lfunc_end24-"core::fmt::formatter::Formatter::write_raw::<#a09238b4ff3d99c5>"

	.section	".text.unlikely.std_alloc::vec::Vec::grow_amortized::<#0802a6bb4cff063a>","ax",@progbits
	.p2align	2
	.type	"std_alloc::vec::Vec::grow_amortized::<#0802a6bb4cff063a>",@function
"std_alloc::vec::Vec::grow_amortized::<#0802a6bb4cff063a>":
	ldr	x8, [x0, #8]
	cmn	x8, #1
	b.eq	.LBB25_5
	stp	x29, x30, [sp, #-32]!
	ldr	x9, [x0, #16]
	cmp	x8, #3
	mov	w10, #3
	csel	x11, x8, x10, hi
	stp	x20, x19, [sp, #16]
	mov	x29, sp
	lsl	x10, x9, #1
	add	x12, x11, #1
	lsr	x13, x9, #62
	cmp	x12, x10
	csinc	x10, x10, x11, ls
	cmp	x13, #0
	csinc	x19, x10, x11, eq
	mov	x11, #6148914691236517205
	movk	x11, #1365, lsl #48
	cmp	x19, x11
	b.hi	.LBB25_7
	cbz	x9, .LBB25_6
	add	x8, x8, x8, lsl #1
	add	x9, x19, x19, lsl #1
	mov	x20, x0
	ldr	x0, [x0]
	mov	w3, #8
	lsl	x1, x8, #3
	lsl	x2, x9, #3
	bl	rattle_realloc
	tbz	w0, #0, .LBB25_7
.LBB25_4:
	mov	w0, #1
	str	x1, [x20]
	str	x19, [x20, #16]
	ldp	x20, x19, [sp, #16]
	ldp	x29, x30, [sp], #32
	ret
.LBB25_5:
	mov	w0, wzr
	ret
.LBB25_6:
	add	x8, x10, x10, lsl #1
	mov	x20, x0
	mov	w1, #8
	lsl	x0, x8, #3
	bl	rattle_alloc
	tbnz	w0, #0, .LBB25_4
.LBB25_7:
	mov	w0, wzr
	ldp	x20, x19, [sp, #16]
	ldp	x29, x30, [sp], #32
	ret
.Lfunc_end25:
	.size	"std_alloc::vec::Vec::grow_amortized::<#0802a6bb4cff063a>", .Lfunc_end25-"std_alloc::vec::Vec::grow_amortized::<#0802a6bb4cff063a>"

	.section	.rodata.cst16,"aM",@progbits,16
	.p2align	4, 0x0
.LCPI26_0:
	.byte	69
	.byte	110
	.byte	116
	.byte	101
	.byte	114
	.byte	105
	.byte	110
	.byte	103
	.byte	32
	.byte	69
	.byte	120
	.byte	116
	.byte	101
	.byte	110
	.byte	100
	.byte	101
.LCPI26_1:
	.byte	100
	.byte	32
	.byte	80
	.byte	97
	.byte	115
	.byte	115
	.byte	105
	.byte	118
	.byte	101
	.byte	32
	.byte	77
	.byte	111
	.byte	100
	.byte	101
	.byte	32
	.byte	40
.LCPI26_3:
	.xword	1
	.xword	10
.LCPI26_4:
	.xword	0
	.xword	4865
	.section	.rodata.cst8,"aM",@progbits,8
	.p2align	3, 0x0
.LCPI26_2:
	.byte	45
	.byte	50
	.byte	49
	.byte	50
	.zero	1
	.zero	1
	.zero	1
	.zero	1
	.section	".text.unlikely.unftp_control_commands::epsv::make_epsv_reply","ax",@progbits
	.p2align	2
	.type	"unftp_control_commands::epsv::make_epsv_reply",@function
"unftp_control_commands::epsv::make_epsv_reply":
	sub	sp, sp, #304
	stp	x29, x30, [sp, #256]
	add	x29, sp, #256
	movi	v0.2d, #0000000000000000
	sub	x8, x29, #1
	stp	x20, x19, [sp, #288]
	mov	x19, x0
	stur	x8, [x29, #-96]
	mov	w8, #32
	sub	x20, x29, #96
	stur	w8, [x29, #-72]
	mov	x8, #-1
	sub	x0, x29, #96
	mov	w1, #35
	str	x28, [sp, #272]
	str	xzr, [sp, #144]
	stp	q0, q0, [sp, #48]
	stp	q0, q0, [sp, #80]
	stp	q0, q0, [sp, #112]
	str	q0, [sp, #32]
	stp	xzr, xzr, [sp, #8]
	str	xzr, [sp]
	stur	xzr, [sp, #23]
	stp	xzr, xzr, [x29, #-88]
	stp	xzr, xzr, [x29, #-48]
	stur	xzr, [x20, #28]
	stur	wzr, [x29, #-60]
	stur	x8, [x29, #-56]
	bl	"std_alloc::vec::Vec::grow_amortized::<#1908c79f2a33ade2>"
	cbz	w0, .LBB26_17
	ldp	x8, x9, [x29, #-96]
	adrp	x11, .Lstatic.73
	add	x11, x11, :lo12:.Lstatic.73
	add	x10, x8, x9
	add	x9, x9, #35
	sub	x12, x10, x11
	cmp	x12, #34
	b.hi	.LBB26_3
	adrp	x11, .LCPI26_0
	adrp	x12, .LCPI26_1
	mov	w13, #31868
	ldr	q0, [x11, :lo12:.LCPI26_0]
	ldr	q1, [x12, :lo12:.LCPI26_1]
	mov	w11, #124
	strh	w13, [x10, #32]
	stp	q0, q1, [x10]
	strb	w11, [x10, #34]
	b	.LBB26_4
.LBB26_3:
	ldp	q0, q1, [x11]
	mov	w12, #31784
	movk	w12, #31868, lsl #16
	stur	w12, [x10, #31]
	stp	q0, q1, [x10]
.LBB26_4:
	mov	w10, #32
	adrp	x11, .LCPI26_2
	stur	x9, [x29, #-88]
	stur	w10, [x29, #-72]
	mov	x10, #-1
	ldr	d0, [x11, :lo12:.LCPI26_2]
	stur	x10, [x29, #-56]
	mov	w10, #49
	ldur	x11, [x29, #-48]
	sturb	w10, [x29, #-9]
	ldur	x10, [x29, #-80]
	stur	xzr, [x20, #28]
	stur	wzr, [x20, #36]
	stp	xzr, xzr, [x29, #-32]
	stur	wzr, [x20, #79]
	stur	s0, [x20, #83]
	cbnz	x11, .LBB26_11
	sub	x11, x10, x9
	cmp	x11, #3
	b.ls	.LBB26_12
.LBB26_6:
	ldur	w11, [x29, #-12]
	add	x12, x9, #4
	str	w11, [x8, x9]
	stp	x12, x10, [x29, #-88]
.LBB26_7:
	mov	w8, #32
	ldur	x9, [x29, #-48]
	stur	xzr, [x20, #28]
	stur	w8, [x29, #-72]
	mov	x8, #-1
	stur	wzr, [x20, #36]
	stur	x8, [x29, #-56]
	cbnz	x9, .LBB26_14
	ldp	x9, x8, [x29, #-88]
	sub	x10, x8, x9
	cmp	x10, #1
	b.ls	.LBB26_15
.LBB26_9:
	ldur	x10, [x29, #-96]
	adrp	x11, .Lstatic.74
	add	x11, x11, :lo12:.Lstatic.74
	add	x10, x10, x9
	add	x9, x9, #2
	sub	x11, x10, x11
	stp	x9, x8, [x29, #-88]
	cmp	x11, #1
	mov	w11, #10620
	strh	w11, [x10]
.LBB26_10:
	ldur	x8, [x29, #-80]
	ldp	q1, q2, [sp, #112]
	ldur	q0, [x29, #-96]
	ldr	x9, [sp, #144]
	stur	x8, [sp, #23]
	str	x8, [sp, #48]
	adrp	x8, .LCPI26_4
	stp	q1, q2, [x19, #96]
	ldr	q1, [x8, :lo12:.LCPI26_4]
	stur	q0, [sp, #7]
	str	q0, [sp, #32]
	stp	q1, q0, [x19]
	ldp	q2, q0, [sp, #48]
	str	x9, [x19, #128]
	stp	q2, q0, [x19, #32]
	ldp	q0, q1, [sp, #80]
	stp	q0, q1, [x19, #64]
	ldp	x20, x19, [sp, #288]
	ldr	x28, [sp, #272]
	ldp	x29, x30, [sp, #256]
	add	sp, sp, #304
	ret
.LBB26_11:
	sub	x8, x29, #32
	sub	x0, x29, #96
	mov	w2, #4
	add	x1, x8, #20
	bl	"core::fmt::formatter::Formatter::write_indented::<#a09238b4ff3d99c5>"
	and	w8, w0, #0xff
	tbnz	w8, #0, .LBB26_17
	b	.LBB26_7
.LBB26_12:
	sub	x0, x29, #96
	mov	w1, #4
	bl	"std_alloc::vec::Vec::grow_amortized::<#1908c79f2a33ade2>"
	cbz	w0, .LBB26_17
	ldp	x9, x10, [x29, #-88]
	ldur	x8, [x29, #-96]
	b	.LBB26_6
.LBB26_14:
	adrp	x1, .Lstatic.74
	add	x1, x1, :lo12:.Lstatic.74
	sub	x0, x29, #96
	mov	w2, #2
	bl	"core::fmt::formatter::Formatter::write_indented::<#a09238b4ff3d99c5>"
	tst	w0, #0xff
	b.ne	.LBB26_17
	b	.LBB26_10
.LBB26_15:
	sub	x0, x29, #96
	mov	w1, #2
	bl	"std_alloc::vec::Vec::grow_amortized::<#1908c79f2a33ade2>"
	cbz	w0, .LBB26_17
	ldp	x9, x8, [x29, #-88]
	b	.LBB26_9
.LBB26_17:
	ldur	x8, [x29, #-80]
	cbz	x8, .LBB26_19
	ldur	x0, [x29, #-96]
	bl	rattle_dealloc
.LBB26_19:
	movi	v0.2d, #0000000000000000
	adrp	x8, .LCPI26_3
	str	xzr, [x19, #128]
	ldr	q1, [x8, :lo12:.LCPI26_3]
	stp	q1, q0, [x19]
	stp	q0, q0, [x19, #32]
	stp	q0, q0, [x19, #64]
	stp	q0, q0, [x19, #96]
	ldp	x20, x19, [sp, #288]
	ldr	x28, [sp, #272]
	ldp	x29, x30, [sp, #256]
	add	sp, sp, #304
	ret
.Lfunc_end26:
	.size	"unftp_control_commands::epsv::make_epsv_reply", .Lfunc_end26-"unftp_control_commands::epsv::make_epsv_reply"

	.section	".text.unlikely.control_demo::responses::answer_mlst","ax",@progbits
	.p2align	2
	.type	"control_demo::responses::answer_mlst",@function
"control_demo::responses::answer_mlst":
	sub	sp, sp, #208
	movi	v0.2d, #0000000000000000
	stp	x20, x19, [sp, #192]
	ldrb	w8, [x1]
	ldp	x20, x2, [x1, #8]
	mov	x9, sp
	str	x23, [sp, #160]
	ldr	x23, [x1, #24]
	mov	x19, x0
	stp	x22, x21, [sp, #176]
	cmp	w8, #1
	orr	x21, x9, #0x8
	stp	x29, x30, [sp, #144]
	add	x29, sp, #144
	stp	q0, q0, [sp]
	stp	q0, q0, [sp, #32]
	stp	q0, q0, [sp, #64]
	stp	q0, q0, [sp, #96]
	str	xzr, [sp, #128]
	b.ne	.LBB27_4
	mov	x0, sp
	mov	x1, x20
	bl	"unftp_control_commands::listing::facts_reply"
	ldrb	w22, [sp]
	cbz	x23, .LBB27_3
	mov	x0, x20
	bl	rattle_dealloc
.LBB27_3:
	ldp	q0, q1, [x21, #64]
	str	x22, [x19]
	b	.LBB27_5
.LBB27_4:
	adrp	x1, .Lstatic.84
	add	x1, x1, :lo12:.Lstatic.84
	mov	x0, sp
	mov	w2, #1
	bl	"unftp_control_commands::listing::facts_reply"
	ldp	q0, q1, [x21, #64]
	ldrb	w8, [sp]
	str	x8, [x19]
.LBB27_5:
	stur	q0, [x19, #72]
	stur	q1, [x19, #88]
	ldp	q0, q1, [x21, #96]
	stur	q0, [x19, #104]
	stur	q1, [x19, #120]
	ldp	q0, q1, [x21]
	stur	q0, [x19, #8]
	stur	q1, [x19, #24]
	ldp	q0, q1, [x21, #32]
	stur	q0, [x19, #40]
	stur	q1, [x19, #56]
	ldp	x20, x19, [sp, #192]
	ldp	x22, x21, [sp, #176]
	ldr	x23, [sp, #160]
	ldp	x29, x30, [sp, #144]
	add	sp, sp, #208
	ret
.Lfunc_end27:
	.size	"control_demo::responses::answer_mlst", .Lfunc_end27-"control_demo::responses::answer_mlst"

	.section	.rodata.cst16,"aM",@progbits,16
	.p2align	4, 0x0
.LCPI28_0:
	.byte	116
	.byte	121
	.byte	112
	.byte	101
	.byte	61
	.byte	102
	.byte	105
	.byte	108
	.byte	101
	.byte	59
	.byte	115
	.byte	105
	.byte	122
	.byte	101
	.byte	61
	.byte	49
.LCPI28_1:
	.byte	50
	.byte	51
	.byte	52
	.byte	59
	.byte	109
	.byte	111
	.byte	100
	.byte	105
	.byte	102
	.byte	121
	.byte	61
	.byte	50
	.byte	48
	.byte	50
	.byte	51
	.byte	49
.LCPI28_3:
	.xword	1
	.xword	10
.LCPI28_4:
	.xword	0
	.xword	5890
	.section	.rodata.cst8,"aM",@progbits,8
	.p2align	3, 0x0
.LCPI28_2:
	.byte	50
	.byte	48
	.byte	49
	.byte	49
	.zero	1
	.zero	1
	.zero	1
	.zero	1
	.section	".text.unlikely.unftp_control_commands::listing::facts_reply","ax",@progbits
	.p2align	2
	.type	"unftp_control_commands::listing::facts_reply",@function
"unftp_control_commands::listing::facts_reply":
	sub	sp, sp, #240
	movi	v0.2d, #0000000000000000
	stp	x29, x30, [sp, #160]
	add	x29, sp, #160
	stp	x24, x23, [sp, #192]
	add	x8, x29, #31
	mov	x23, #-1
	stp	x22, x21, [sp, #208]
	mov	x22, x1
	mov	w24, #32
	stp	x20, x19, [sp, #224]
	mov	x19, x0
	sub	x0, x29, #64
	mov	w1, #1
	str	x25, [sp, #176]
	mov	x21, x2
	stp	q0, q0, [sp]
	sub	x20, x29, #64
	stp	q0, q0, [sp, #32]
	stp	q0, q0, [sp, #64]
	stp	xzr, xzr, [x29, #-56]
	stur	x8, [x29, #-64]
	stp	xzr, xzr, [x29, #-16]
	stur	w24, [x29, #-40]
	stur	xzr, [x29, #-36]
	stur	wzr, [x29, #-28]
	stur	x23, [x29, #-24]
	bl	"std_alloc::vec::Vec::grow_amortized::<#1908c79f2a33ade2>"
	cbz	w0, .LBB28_54
	ldp	x8, x9, [x29, #-64]
	ldur	x11, [x29, #-16]
	stur	w24, [x29, #-40]
	stur	xzr, [x20, #28]
	add	x10, x9, #1
	strb	w24, [x8, x9]
	ldur	x9, [x29, #-48]
	stur	x10, [x29, #-56]
	stur	wzr, [x20, #36]
	stur	x23, [x29, #-24]
	cbnz	x11, .LBB28_33
	sub	x11, x9, x10
	cmp	x11, #41
	b.ls	.LBB28_35
.LBB28_3:
	add	x11, x8, x10
	adrp	x12, .Lstatic.83
	add	x12, x12, :lo12:.Lstatic.83
	sub	x13, x11, x12
	add	x10, x10, #42
	cmp	x13, #41
	b.hi	.LBB28_5
	adrp	x12, .LCPI28_0
	adrp	x13, .LCPI28_1
	mov	w14, #50
	ldr	q0, [x12, :lo12:.LCPI28_0]
	adrp	x12, .LCPI28_2
	ldr	q1, [x13, :lo12:.LCPI28_1]
	ldr	d2, [x12, :lo12:.LCPI28_2]
	mov	w12, #808464432
	strb	w14, [x11, #36]
	stur	w12, [x11, #37]
	mov	w12, #59
	stp	q0, q1, [x11]
	str	s2, [x11, #32]
	strb	w12, [x11, #41]
	b	.LBB28_6
.LBB28_5:
	ldp	q0, q1, [x12]
	ldur	q2, [x12, #26]
	stp	q0, q1, [x11]
	stur	q2, [x11, #26]
.LBB28_6:
	stp	x8, x10, [x29, #-64]
	stur	x9, [x29, #-48]
.LBB28_7:
	mov	w8, #32
	ldur	x9, [x29, #-16]
	stur	xzr, [x20, #28]
	stur	w8, [x29, #-40]
	mov	x8, #-1
	stur	wzr, [x20, #36]
	stur	x8, [x29, #-24]
	cbnz	x9, .LBB28_37
	ldp	x9, x8, [x29, #-56]
	cmp	x8, x9
	b.eq	.LBB28_38
.LBB28_9:
	ldur	x10, [x29, #-64]
	add	x11, x9, #1
	mov	w12, #32
	stp	x11, x8, [x29, #-56]
	strb	w12, [x10, x9]
.LBB28_10:
	mov	w8, #32
	ldur	x9, [x29, #-16]
	stur	xzr, [x20, #28]
	stur	w8, [x29, #-40]
	mov	x8, #-1
	stur	wzr, [x20, #36]
	stur	x8, [x29, #-24]
	cbnz	x9, .LBB28_40
	ldp	x8, x24, [x29, #-56]
	sub	x9, x24, x8
	cmp	x21, x9
	b.hi	.LBB28_49
	ldur	x20, [x29, #-64]
	add	x23, x8, x21
	add	x0, x20, x8
	sub	x9, x0, x22
	cmp	x9, x21
	b.hs	.LBB28_51
.LBB28_13:
	cmp	x21, #8
	b.lo	.LBB28_15
	add	x9, x8, x20
	sub	x9, x9, x22
	cmp	x9, #32
	b.hs	.LBB28_25
.LBB28_15:
	mov	x9, xzr
.LBB28_16:
	sub	x10, x21, x9
	add	x11, x22, x9
	add	x8, x9, x8
.LBB28_17:
	ldrb	w9, [x11], #1
	subs	x10, x10, #1
	strb	w9, [x20, x8]
	add	x8, x8, #1
	b.ne	.LBB28_17
.LBB28_18:
	mov	w0, #72
	mov	w1, #8
	bl	rattle_alloc
	tbz	w0, #0, .LBB28_52
.LBB28_19:
	mov	x21, x1
	mov	w0, #8
	mov	w1, #1
	bl	rattle_alloc
	tbz	w0, #0, .LBB28_24
	adrp	x8, .Lstatic.85
	add	x8, x8, :lo12:.Lstatic.85
	sub	x8, x1, x8
	cmp	x8, #8
	mov	x8, #19488
	movk	x8, #29545, lsl #16
	movk	x8, #26996, lsl #32
	movk	x8, #26478, lsl #48
	str	x8, [x1]
	mov	w8, #8
	dup	v0.2d, x8
	str	x1, [x21]
	stur	q0, [x21, #8]
	cbz	x23, .LBB28_27
	tbnz	x23, #63, .LBB28_59
	mov	x0, x23
	mov	w1, #1
	mov	w25, #1
	bl	rattle_alloc
	tbz	w0, #0, .LBB28_73
	mov	x22, x1
	b	.LBB28_28
.LBB28_24:
	movi	v0.2d, #0000000000000000
	stp	q0, q0, [sp]
	stp	q0, q0, [sp, #32]
	stp	q0, q0, [sp, #64]
	b	.LBB28_78
.LBB28_25:
	cmp	x21, #32
	b.hs	.LBB28_42
	mov	x9, xzr
	b	.LBB28_46
.LBB28_27:
	add	x22, x29, #31
.LBB28_28:
	sub	x9, x22, x20
	cmp	x9, x23
	b.hs	.LBB28_34
	cmp	x23, #8
	mov	x8, xzr
	b.lo	.LBB28_67
	cmp	x9, #32
	b.lo	.LBB28_67
	cmp	x23, #32
	b.hs	.LBB28_60
	mov	x8, xzr
	b	.LBB28_64
.LBB28_33:
	adrp	x1, .Lstatic.83
	add	x1, x1, :lo12:.Lstatic.83
	sub	x0, x29, #64
	mov	w2, #42
	bl	"core::fmt::formatter::Formatter::write_indented::<#a09238b4ff3d99c5>"
	and	w8, w0, #0xff
	tbnz	w8, #0, .LBB28_54
	b	.LBB28_7
.LBB28_34:
	mov	x0, x22
	mov	x1, x20
	mov	x2, x23
	bl	memmove
	b	.LBB28_69
.LBB28_35:
	sub	x0, x29, #64
	mov	w1, #42
	bl	"std_alloc::vec::Vec::grow_amortized::<#1908c79f2a33ade2>"
	cbz	w0, .LBB28_54
	ldp	x10, x9, [x29, #-56]
	ldur	x8, [x29, #-64]
	b	.LBB28_3
.LBB28_37:
	adrp	x1, .Lstatic.70
	add	x1, x1, :lo12:.Lstatic.70
	sub	x0, x29, #64
	mov	w2, #1
	bl	"core::fmt::formatter::Formatter::write_indented::<#a09238b4ff3d99c5>"
	and	w8, w0, #0xff
	tbnz	w8, #0, .LBB28_54
	b	.LBB28_10
.LBB28_38:
	sub	x0, x29, #64
	mov	w1, #1
	bl	"std_alloc::vec::Vec::grow_amortized::<#1908c79f2a33ade2>"
	cbz	w0, .LBB28_54
	ldp	x9, x8, [x29, #-56]
	b	.LBB28_9
.LBB28_40:
	sub	x0, x29, #64
	mov	x1, x22
	mov	x2, x21
	bl	"core::fmt::formatter::Formatter::write_indented::<#a09238b4ff3d99c5>"
	tst	w0, #0xff
	b.ne	.LBB28_54
	ldp	x23, x24, [x29, #-56]
	ldur	x20, [x29, #-64]
	mov	w0, #72
	mov	w1, #8
	bl	rattle_alloc
	tbnz	w0, #0, .LBB28_19
	b	.LBB28_52
.LBB28_42:
	add	x12, x8, x20
	and	x10, x21, #0x18
	and	x9, x21, #0xffffffffffffffe0
	add	x11, x22, #16
	add	x12, x12, #16
	and	x13, x21, #0xffffffffffffffe0
.LBB28_43:
	ldp	q0, q1, [x11, #-16]
	subs	x13, x13, #32
	add	x11, x11, #32
	stp	q0, q1, [x12, #-16]
	add	x12, x12, #32
	b.ne	.LBB28_43
	cmp	x21, x9
	b.eq	.LBB28_18
	cbz	x10, .LBB28_16
.LBB28_46:
	mov	x12, x9
	and	x9, x21, #0xfffffffffffffff8
	sub	x10, x12, x9
	add	x11, x22, x12
	add	x12, x8, x12
.LBB28_47:
	ldr	d0, [x11], #8
	adds	x10, x10, #8
	str	d0, [x20, x12]
	add	x12, x12, #8
	b.ne	.LBB28_47
	cmp	x21, x9
	b.eq	.LBB28_18
	b	.LBB28_16
.LBB28_49:
	sub	x0, x29, #64
	mov	x1, x21
	bl	"std_alloc::vec::Vec::grow_amortized::<#1908c79f2a33ade2>"
	cbz	w0, .LBB28_54
	ldp	x8, x24, [x29, #-56]
	ldur	x20, [x29, #-64]
	add	x23, x8, x21
	add	x0, x20, x8
	sub	x9, x0, x22
	cmp	x9, x21
	b.lo	.LBB28_13
.LBB28_51:
	mov	x1, x22
	mov	x2, x21
	bl	memmove
	mov	w0, #72
	mov	w1, #8
	bl	rattle_alloc
	tbnz	w0, #0, .LBB28_19
.LBB28_52:
	cbz	x24, .LBB28_57
	mov	x0, x20
	b	.LBB28_56
.LBB28_54:
	ldur	x8, [x29, #-48]
	cbz	x8, .LBB28_57
	ldur	x0, [x29, #-64]
.LBB28_56:
	bl	rattle_dealloc
.LBB28_57:
	movi	v0.2d, #0000000000000000
	adrp	x8, .LCPI28_3
	str	xzr, [x19, #128]
	ldr	q1, [x8, :lo12:.LCPI28_3]
	stp	q1, q0, [x19]
	stp	q0, q0, [x19, #32]
	stp	q0, q0, [x19, #64]
	stp	q0, q0, [x19, #96]
.LBB28_58:
	ldp	x20, x19, [sp, #224]
	ldr	x25, [sp, #176]
	ldp	x22, x21, [sp, #208]
	ldp	x24, x23, [sp, #192]
	ldp	x29, x30, [sp, #160]
	add	sp, sp, #240
	ret
.LBB28_59:
	mov	w25, #1
	b	.LBB28_73
.LBB28_60:
	and	x9, x23, #0x18
	and	x8, x23, #0xffffffffffffffe0
	add	x10, x20, #16
	add	x11, x22, #16
	and	x12, x23, #0xffffffffffffffe0
.LBB28_61:
	ldp	q0, q1, [x10, #-16]
	subs	x12, x12, #32
	add	x10, x10, #32
	stp	q0, q1, [x11, #-16]
	add	x11, x11, #32
	b.ne	.LBB28_61
	cmp	x23, x8
	b.eq	.LBB28_69
	cbz	x9, .LBB28_67
.LBB28_64:
	mov	x11, x8
	and	x8, x23, #0xfffffffffffffff8
	sub	x9, x11, x8
	add	x10, x20, x11
	add	x11, x22, x11
.LBB28_65:
	ldr	d0, [x10], #8
	adds	x9, x9, #8
	str	d0, [x11], #8
	b.ne	.LBB28_65
	cmp	x23, x8
	b.eq	.LBB28_69
.LBB28_67:
	sub	x9, x23, x8
	add	x10, x20, x8
	add	x8, x22, x8
.LBB28_68:
	ldrb	w11, [x10], #1
	subs	x9, x9, #1
	strb	w11, [x8], #1
	b.ne	.LBB28_68
.LBB28_69:
	mov	w0, #3
	mov	w1, #1
	stp	x22, x23, [x21, #24]
	str	x23, [x21, #40]
	bl	rattle_alloc
	tbz	w0, #0, .LBB28_72
	adrp	x8, .Lstatic.86
	add	x8, x8, :lo12:.Lstatic.86
	sub	x8, x1, x8
	cmp	x8, #3
	b.hs	.LBB28_81
	mov	w8, #28229
	mov	w9, #100
	strh	w8, [x1]
	strb	w9, [x1, #2]
	b	.LBB28_82
.LBB28_72:
	mov	w25, wzr
.LBB28_73:
	movi	v0.2d, #0000000000000000
	ldr	x8, [x21, #16]
	stp	q0, q0, [sp]
	stp	q0, q0, [sp, #32]
	stp	q0, q0, [sp, #64]
	cbz	x8, .LBB28_75
	ldr	x0, [x21]
	bl	rattle_dealloc
.LBB28_75:
	tbnz	w25, #0, .LBB28_78
	ldr	x8, [x21, #40]
	cbz	x8, .LBB28_78
	ldr	x0, [x21, #24]
	bl	rattle_dealloc
.LBB28_78:
	mov	x0, x21
	bl	rattle_dealloc
	cbz	x24, .LBB28_80
	mov	x0, x20
	bl	rattle_dealloc
.LBB28_80:
	ldp	q0, q1, [sp, #32]
	adrp	x8, .LCPI28_3
	stp	xzr, xzr, [x19, #16]
	str	xzr, [x19, #32]
	stur	q0, [x19, #72]
	ldr	q0, [x8, :lo12:.LCPI28_3]
	stur	q1, [x19, #88]
	str	q0, [x19]
	ldp	q1, q0, [sp, #64]
	stur	q1, [x19, #104]
	stur	q0, [x19, #120]
	ldp	q1, q0, [sp]
	stur	q1, [x19, #40]
	stur	q0, [x19, #56]
	b	.LBB28_58
.LBB28_81:
	mov	w8, #100
	mov	w9, #28229
	strb	w8, [x1, #2]
	strh	w9, [x1]
.LBB28_82:
	mov	w8, #3
	str	x1, [x21, #48]
	dup	v0.2d, x8
	stur	q0, [x21, #56]
	cbz	x24, .LBB28_84
	mov	x0, x20
	bl	rattle_dealloc
.LBB28_84:
	ldp	q0, q1, [sp, #32]
	adrp	x8, .LCPI28_4
	stur	q0, [x19, #72]
	ldr	q0, [x8, :lo12:.LCPI28_4]
	mov	w8, #3
	stur	q1, [x19, #88]
	str	q0, [x19]
	ldp	q1, q0, [sp, #64]
	stp	x21, x8, [x19, #16]
	str	x8, [x19, #32]
	stur	q1, [x19, #104]
	stur	q0, [x19, #120]
	ldp	q1, q0, [sp]
	stur	q1, [x19, #40]
	stur	q0, [x19, #56]
	b	.LBB28_58
.Lfunc_end28:
	.size	"unftp_control_commands::listing::facts_reply", .Lfunc_end28-"unftp_control_commands::listing::facts_reply"

	.section	".text.unlikely.std_alloc::vec::Vec::grow_amortized::<#79675877bf17c286>","ax",@progbits
	.p2align	2
	.type	"std_alloc::vec::Vec::grow_amortized::<#79675877bf17c286>",@function
"std_alloc::vec::Vec::grow_amortized::<#79675877bf17c286>":
	ldr	x8, [x0, #8]
	cmn	x8, x1
	b.lo	.LBB29_2
	mov	w0, wzr
	ret
.LBB29_2:
	stp	x29, x30, [sp, #-32]!
	ldr	x10, [x0, #16]
	add	x9, x8, x1
	mov	w11, #8
	cmp	x9, #8
	stp	x20, x19, [sp, #16]
	mov	x29, sp
	lsl	x12, x10, #1
	csel	x11, x9, x11, hi
	lsr	x13, x10, #62
	cmp	x11, x12
	csel	x9, x11, x12, hi
	cmp	x13, #0
	csel	x19, x9, x11, eq
	tbnz	x19, #63, .LBB29_7
	cbz	x10, .LBB29_6
	mov	x20, x0
	ldr	x0, [x0]
	mov	x1, x8
	mov	x2, x19
	mov	w3, #1
	bl	rattle_realloc
	tbz	w0, #0, .LBB29_7
.LBB29_5:
	mov	w0, #1
	str	x1, [x20]
	str	x19, [x20, #16]
	ldp	x20, x19, [sp, #16]
	ldp	x29, x30, [sp], #32
	ret
.LBB29_6:
	mov	x20, x0
	mov	x0, x9
	mov	w1, #1
	bl	rattle_alloc
	tbnz	w0, #0, .LBB29_5
.LBB29_7:
	mov	w0, wzr
	ldp	x20, x19, [sp, #16]
	ldp	x29, x30, [sp], #32
	ret
.Lfunc_end29:
	.size	"std_alloc::vec::Vec::grow_amortized::<#79675877bf17c286>", .Lfunc_end29-"std_alloc::vec::Vec::grow_amortized::<#79675877bf17c286>"

	.section	.rodata.cst16,"aM",@progbits,16
	.p2align	4, 0x0
.LCPI30_0:
	.xword	8458358670138239095
	.xword	3327647951695996518
.LCPI30_1:
	.xword	8367798494427701606
	.xword	2334399978102268015
	.section	.rodata.cst8,"aM",@progbits,8
	.p2align	3, 0x0
.LCPI30_2:
	.hword	2
	.hword	23
	.hword	28
	.hword	0
.LCPI30_3:
	.hword	0
	.hword	35
	.hword	0
	.hword	0
	.section	".text.std_io::io::buffer::Buffer::flush","ax",@progbits
	.p2align	2
	.type	"std_io::io::buffer::Buffer::flush",@function
"std_io::io::buffer::Buffer::flush":
	sub	sp, sp, #224
	stp	x22, x21, [sp, #192]
	ldr	x22, [x0, #1032]
	stp	x29, x30, [sp, #144]
	add	x29, sp, #144
	cmp	x22, #1025
	str	x25, [sp, #160]
	stp	x24, x23, [sp, #176]
	stp	x20, x19, [sp, #208]
	str	xzr, [x0, #1032]
	b.lo	.LBB30_2
	mov	w0, wzr
	b	.LBB30_15
.LBB30_2:
	mov	x24, x0
	mov	x19, x0
	mov	x23, xzr
	ldr	w20, [x24], #4
	add	x25, x22, #64
	b	.LBB30_5
.LBB30_3:
	bl	rattle_errno
	cmp	w0, #4
	b.ne	.LBB30_13
	subs	x25, x25, #1
	b.eq	.LBB30_9
.LBB30_5:
	subs	x21, x22, x23
	b.ls	.LBB30_11
	add	x1, x24, x23
	mov	w0, w20
	mov	x2, x21
	bl	write
	tbnz	x0, #63, .LBB30_3
	cbz	x0, .LBB30_12
	cmp	x0, x21
	csel	x8, x0, x21, lo
	add	x23, x8, x23
	subs	x25, x25, #1
	b.ne	.LBB30_5
.LBB30_9:
	cmp	x22, x23
	b.ls	.LBB30_11
	movi	v0.2d, #0000000000000000
	movi	v1.2d, #0000000000000000
	adrp	x8, .LCPI30_3
	ldr	d2, [x8, :lo12:.LCPI30_3]
	mov	w8, #4
	stp	q0, q0, [sp, #16]
	str	q0, [sp]
	b	.LBB30_14
.LBB30_11:
	mov	w0, #1
	b	.LBB30_15
.LBB30_12:
	movi	v3.16b, #46
	adrp	x9, .LCPI30_0
	adrp	x10, .LCPI30_1
	adrp	x11, .LCPI30_2
	ldr	q1, [x9, :lo12:.LCPI30_0]
	ldr	q0, [x10, :lo12:.LCPI30_1]
	ldr	d2, [x11, :lo12:.LCPI30_2]
	mov	w8, wzr
	stp	q3, q3, [sp, #16]
	str	q3, [sp]
	b	.LBB30_14
.LBB30_13:
	mov	w1, w0
	add	x0, sp, #56
	bl	"std_io::io::error::Error::from_raw_os_error"
	ldp	q1, q3, [sp, #96]
	ldr	s0, [sp, #56]
	ldur	q4, [sp, #128]
	ldr	w8, [sp, #60]
	ushll	v2.8h, v0.8b, #0
	stp	q1, q3, [sp]
	ldp	q0, q1, [sp, #64]
	str	q4, [sp, #32]
.LBB30_14:
	uzp1	v2.8b, v2.8b, v0.8b
	str	q0, [x19, #1056]
	mov	w0, wzr
	str	q1, [x19, #1072]
	ldp	q0, q1, [sp]
	str	w8, [x19, #1052]
	mov	w8, #1
	str	x8, [x19, #1040]
	str	q0, [x19, #1088]
	ldr	q0, [sp, #32]
	str	s2, [x19, #1048]
	str	q1, [x19, #1104]
	str	q0, [x19, #1120]
.LBB30_15:
	ldp	x20, x19, [sp, #208]
	ldr	x25, [sp, #160]
	ldp	x22, x21, [sp, #192]
	ldp	x24, x23, [sp, #176]
	ldp	x29, x30, [sp, #144]
	add	sp, sp, #224
	ret
.Lfunc_end30:
	.size	"std_io::io::buffer::Buffer::flush", .Lfunc_end30-"std_io::io::buffer::Buffer::flush"

	.section	".text.unlikely.core::fmt::formatter::Formatter::write_indented::<#bf264aed5fa78656>","ax",@progbits
	.p2align	2
	.type	"core::fmt::formatter::Formatter::write_indented::<#bf264aed5fa78656>",@function
"core::fmt::formatter::Formatter::write_indented::<#bf264aed5fa78656>":
	stp	x29, x30, [sp, #-80]!
	str	x25, [sp, #16]
	mov	x29, sp
	stp	x24, x23, [sp, #32]
	stp	x22, x21, [sp, #48]
	stp	x20, x19, [sp, #64]
	cbz	x2, .LBB31_16
	mov	x21, x2
	mov	x20, x1
	mov	x19, x0
	mov	x8, xzr
	mov	x24, xzr
	b	.LBB31_4
.LBB31_2:
	mov	w23, #1
	add	x1, x20, x25
	mov	x0, x19
	mov	x2, x22
	strb	w23, [x19, #1168]
	bl	"core::fmt::formatter::Formatter::write_raw::<#bf264aed5fa78656>"
	and	w9, w0, #0xff
	mov	x8, x24
	tbnz	w9, #0, .LBB31_18
.LBB31_3:
	cmp	x24, x21
	b.eq	.LBB31_10
.LBB31_4:
	ldrb	w10, [x20, x24]
	mov	x9, x24
	add	x24, x24, #1
	cmp	w10, #10
	b.ne	.LBB31_3
	subs	x22, x24, x8
	csel	x25, xzr, x8, lo
	cmp	x8, x9
	mov	x8, x24
	b.hi	.LBB31_3
	ldrb	w8, [x19, #1168]
	cmp	w8, #1
	b.ne	.LBB31_2
	ldr	x23, [x19, #1160]
	cbz	x23, .LBB31_2
.LBB31_8:
	adrp	x1, .Lstatic.71
	add	x1, x1, :lo12:.Lstatic.71
	mov	x0, x19
	mov	w2, #4
	bl	"core::fmt::formatter::Formatter::write_raw::<#bf264aed5fa78656>"
	and	w8, w0, #0xff
	tbnz	w8, #0, .LBB31_17
	subs	x23, x23, #1
	b.ne	.LBB31_8
	b	.LBB31_2
.LBB31_10:
	cmp	x8, x21
	csel	x22, xzr, x8, hi
	subs	x8, x21, x8
	csel	x21, xzr, x8, lo
	b.ls	.LBB31_16
	ldrb	w8, [x19, #1168]
	cmp	w8, #1
	b.ne	.LBB31_15
	ldr	x23, [x19, #1160]
	cbz	x23, .LBB31_15
.LBB31_13:
	adrp	x1, .Lstatic.71
	add	x1, x1, :lo12:.Lstatic.71
	mov	x0, x19
	mov	w2, #4
	bl	"core::fmt::formatter::Formatter::write_raw::<#bf264aed5fa78656>"
	and	w8, w0, #0xff
	tbnz	w8, #0, .LBB31_17
	subs	x23, x23, #1
	b.ne	.LBB31_13
.LBB31_15:
	add	x1, x20, x22
	mov	x0, x19
	mov	x2, x21
	strb	wzr, [x19, #1168]
	ldp	x20, x19, [sp, #64]
	ldp	x22, x21, [sp, #48]
	ldr	x25, [sp, #16]
	ldp	x24, x23, [sp, #32]
	ldp	x29, x30, [sp], #80
	b	"core::fmt::formatter::Formatter::write_raw::<#bf264aed5fa78656>"
.LBB31_16:
	mov	w23, wzr
	b	.LBB31_18
.LBB31_17:
	mov	w23, #1
.LBB31_18:
	mov	w0, w23
	ldp	x20, x19, [sp, #64]
	ldp	x22, x21, [sp, #48]
	ldr	x25, [sp, #16]
	ldp	x24, x23, [sp, #32]
	ldp	x29, x30, [sp], #80
	ret
.Lfunc_end31:
	.size	"core::fmt::formatter::Formatter::write_indented::<#bf264aed5fa78656>", .Lfunc_end31-"core::fmt::formatter::Formatter::write_indented::<#bf264aed5fa78656>"

	.section	".text.core::fmt::formatter::Formatter::write_raw::<#bf264aed5fa78656>","ax",@progbits
	.p2align	2
	.type	"core::fmt::formatter::Formatter::write_raw::<#bf264aed5fa78656>",@function
"core::fmt::formatter::Formatter::write_raw::<#bf264aed5fa78656>":
	cbz	x2, .LBB32_21
	stp	x29, x30, [sp, #-64]!
	stp	x22, x21, [sp, #32]
	mov	x21, x0
	mov	x8, xzr
	stp	x20, x19, [sp, #48]
	mov	x19, x2
	mov	x20, x1
	str	x23, [sp, #16]
	mov	x29, sp
	b	.LBB32_4
.LBB32_2:
	mov	w10, #1
.LBB32_3:
	add	x8, x10, x8
	cmp	x8, x19
	b.hs	.LBB32_22
.LBB32_4:
	ldrsb	w9, [x20, x8]
	tbz	w9, #31, .LBB32_2
	add	x10, x8, #1
	cmp	x19, x10
	b.ls	.LBB32_29
	ldrsb	w10, [x20, x10]
	tbz	w10, #31, .LBB32_29
	and	w9, w9, #0xff
	cmn	w10, #64
	mov	w11, #-64
	csel	w10, w10, w11, lo
	cmp	w9, #194
	mov	w0, #1
	b.lo	.LBB32_28
	and	w10, w10, #0x7f
	cmp	w10, #63
	b.hi	.LBB32_28
	cmp	w9, #224
	b.hs	.LBB32_11
	mov	w10, #2
	b	.LBB32_3
.LBB32_11:
	add	x11, x8, #2
	cmp	x19, x11
	b.ls	.LBB32_28
	ldrsb	w11, [x20, x11]
	cmn	w11, #65
	b.gt	.LBB32_28
	cmp	w9, #239
	b.hi	.LBB32_17
	lsl	w11, w9, #12
	add	w10, w11, w10, lsl #6
	sub	w10, w10, #224, lsl #12
	cmp	w10, #2048
	b.lo	.LBB32_28
	lsr	w10, w10, #11
	cmp	w10, #27
	mov	w10, #3
	b.lo	.LBB32_3
	cmp	w9, #238
	b.hs	.LBB32_3
	b	.LBB32_28
.LBB32_17:
	add	x11, x8, #3
	cmp	x19, x11
	b.ls	.LBB32_28
	ldrsb	w11, [x20, x11]
	cmn	w11, #65
	b.gt	.LBB32_28
	lsl	w9, w9, #18
	add	w9, w9, w10, lsl #12
	mov	w10, #-62980096
	add	w9, w9, w10
	lsr	w9, w9, #20
	cbnz	w9, .LBB32_28
	mov	w10, #4
	b	.LBB32_3
.LBB32_21:
	mov	w0, wzr
	ret
.LBB32_22:
	ldr	x8, [x21, #1032]
	add	x22, x21, #4
	b	.LBB32_24
.LBB32_23:
	sub	x19, x19, #1
	strb	w23, [x22, x8]
	add	x8, x8, #1
	str	x8, [x21, #1032]
	cbz	x19, .LBB32_30
.LBB32_24:
	ldrb	w23, [x20], #1
	cmp	x8, #1024
	b.lo	.LBB32_23
	mov	x0, x21
	bl	"std_io::io::buffer::Buffer::flush"
	cbz	w0, .LBB32_29
	ldr	x8, [x21, #1032]
	cmp	x8, #1023
	b.ls	.LBB32_23
	mov	w0, #1
.LBB32_28:
	ldp	x20, x19, [sp, #48]
	ldr	x23, [sp, #16]
	ldp	x22, x21, [sp, #32]
	ldp	x29, x30, [sp], #64
	ret
.LBB32_29:
	mov	w0, #1
	ldp	x20, x19, [sp, #48]
	ldr	x23, [sp, #16]
	ldp	x22, x21, [sp, #32]
	ldp	x29, x30, [sp], #64
	ret
.LBB32_30:
	mov	w0, wzr
	ldp	x20, x19, [sp, #48]
	ldr	x23, [sp, #16]
	ldp	x22, x21, [sp, #32]
	ldp	x29, x30, [sp], #64
	ret
.Lfunc_end32:
	.size	"core::fmt::formatter::Formatter::write_raw::<#bf264aed5fa78656>", .Lfunc_end32-"core::fmt::formatter::Formatter::write_raw::<#bf264aed5fa78656>"

	.section	".text.core::fmt::formatter::Formatter::cut_and_fill::<#bf264aed5fa78656>","ax",@progbits
	.p2align	2
	.type	"core::fmt::formatter::Formatter::cut_and_fill::<#bf264aed5fa78656>",@function
"core::fmt::formatter::Formatter::cut_and_fill::<#bf264aed5fa78656>":
	stp	x29, x30, [sp, #-80]!
	ldr	x8, [x0, #1152]
	stp	x22, x21, [sp, #48]
	mov	x21, x2
	stp	x20, x19, [sp, #64]
	mov	x20, x1
	mov	x19, x0
	cmp	x2, x8
	stp	x26, x25, [sp, #16]
	mov	x29, sp
	stp	x24, x23, [sp, #32]
	b.ls	.LBB33_8
	mov	x21, xzr
	b	.LBB33_3
.LBB33_2:
	add	x21, x21, #1
	cmp	x2, x21
	b.eq	.LBB33_6
.LBB33_3:
	ldrsb	w9, [x20, x21]
	cmn	w9, #64
	b.lt	.LBB33_2
	cbz	x8, .LBB33_7
	sub	x8, x8, #1
	b	.LBB33_2
.LBB33_6:
	mov	x21, x2
	b	.LBB33_9
.LBB33_7:
	cmp	x2, x21
	b.lo	.LBB33_30
.LBB33_8:
	cbz	x2, .LBB33_10
.LBB33_9:
	ldrsb	w8, [x20]
	cmn	w8, #64
	b.lt	.LBB33_30
.LBB33_10:
	cmp	x21, x2
	b.eq	.LBB33_12
	ldrsb	w8, [x20, x21]
	cmn	w8, #64
	b.lt	.LBB33_30
.LBB33_12:
	ldr	x24, [x19, #1144]
	cbz	x21, .LBB33_17
	cbz	x24, .LBB33_17
	mov	x8, xzr
.LBB33_15:
	ldrsb	w9, [x20, x8]
	add	x8, x8, #1
	cmn	w9, #65
	cset	w9, gt
	cmp	x8, x21
	sub	x24, x24, x9
	b.hs	.LBB33_17
	cbnz	x24, .LBB33_15
.LBB33_17:
	ldrb	w8, [x19, #1140]
	cmp	w8, #1
	csinc	w8, w8, wzr, hi
	cmp	w8, #2
	b.eq	.LBB33_20
	cmp	w8, #1
	mov	x23, x24
	b.ne	.LBB33_21
	ldr	w22, [x19, #1136]
	mov	x23, xzr
	b	.LBB33_23
.LBB33_20:
	lsr	x23, x24, #1
.LBB33_21:
	ldr	w22, [x19, #1136]
	cbz	x23, .LBB33_23
	mov	x0, x19
	mov	w1, w22
	mov	x2, x23
	bl	"core::fmt::formatter::Formatter::write_char_n_times::<#bf264aed5fa78656>"
	and	w8, w0, #0xff
	tbnz	w8, #0, .LBB33_30
.LBB33_23:
	ldr	x8, [x19, #1160]
	cbnz	x8, .LBB33_31
	cbz	x21, .LBB33_32
	ldr	x8, [x19, #1032]
	add	x25, x19, #4
	b	.LBB33_27
.LBB33_26:
	sub	x21, x21, #1
	strb	w26, [x25, x8]
	add	x8, x8, #1
	str	x8, [x19, #1032]
	cbz	x21, .LBB33_32
.LBB33_27:
	ldrb	w26, [x20], #1
	cmp	x8, #1024
	b.lo	.LBB33_26
	mov	x0, x19
	bl	"std_io::io::buffer::Buffer::flush"
	cbz	w0, .LBB33_30
	ldr	x8, [x19, #1032]
	cmp	x8, #1023
	b.ls	.LBB33_26
.LBB33_30:
	mov	w0, #1
	ldp	x20, x19, [sp, #64]
	ldp	x22, x21, [sp, #48]
	ldp	x24, x23, [sp, #32]
	ldp	x26, x25, [sp, #16]
	ldp	x29, x30, [sp], #80
	ret
.LBB33_31:
	mov	x0, x19
	mov	x1, x20
	mov	x2, x21
	bl	"core::fmt::formatter::Formatter::write_indented::<#bf264aed5fa78656>"
	and	w8, w0, #0xff
	tbnz	w8, #0, .LBB33_30
.LBB33_32:
	subs	x2, x24, x23
	b.ls	.LBB33_34
	mov	x0, x19
	mov	w1, w22
	ldp	x20, x19, [sp, #64]
	ldp	x22, x21, [sp, #48]
	ldp	x24, x23, [sp, #32]
	ldp	x26, x25, [sp, #16]
	ldp	x29, x30, [sp], #80
	b	"core::fmt::formatter::Formatter::write_char_n_times::<#bf264aed5fa78656>"
.LBB33_34:
	mov	w0, wzr
	ldp	x20, x19, [sp, #64]
	ldp	x22, x21, [sp, #48]
	ldp	x24, x23, [sp, #32]
	ldp	x26, x25, [sp, #16]
	ldp	x29, x30, [sp], #80
	ret
.Lfunc_end33:
	.size	"core::fmt::formatter::Formatter::cut_and_fill::<#bf264aed5fa78656>", .Lfunc_end33-"core::fmt::formatter::Formatter::cut_and_fill::<#bf264aed5fa78656>"

	.section	.rodata.cst16,"aM",@progbits,16
	.p2align	4, 0x0
.LCPI34_0:
	.word	4294967278
	.word	4294967284
	.word	4294967290
	.word	0
.LCPI34_3:
	.xword	8458358670138239095
	.xword	3327647951695996518
.LCPI34_4:
	.xword	8367798494427701606
	.xword	2334399978102268015
	.section	.rodata.cst8,"aM",@progbits,8
	.p2align	3, 0x0
.LCPI34_1:
	.hword	255
	.hword	63
	.hword	63
	.hword	63
.LCPI34_2:
	.hword	240
	.hword	128
	.hword	128
	.hword	128
.LCPI34_5:
	.hword	2
	.hword	23
	.hword	28
	.hword	0
.LCPI34_6:
	.hword	0
	.hword	35
	.hword	0
	.hword	0
	.section	".text.core::fmt::formatter::Formatter::write_char_n_times::<#bf264aed5fa78656>","ax",@progbits
	.p2align	2
	.type	"core::fmt::formatter::Formatter::write_char_n_times::<#bf264aed5fa78656>",@function
"core::fmt::formatter::Formatter::write_char_n_times::<#bf264aed5fa78656>":
	sub	sp, sp, #336
	stp	x20, x19, [sp, #320]
	mov	x20, x2
	mov	x19, x0
	cmp	w1, #127
	stp	x29, x30, [sp, #240]
	add	x29, sp, #240
	stp	x28, x27, [sp, #256]
	stp	x26, x25, [sp, #272]
	stp	x24, x23, [sp, #288]
	stp	x22, x21, [sp, #304]
	stp	xzr, xzr, [sp, #32]
	str	xzr, [sp, #48]
	b.hi	.LBB34_25
	mov	w8, w1
	mov	x9, #72340172838076673
	cmp	x20, #17
	mul	x8, x8, x9
	stp	x8, x8, [sp, #64]
	b.lo	.LBB34_19
	add	x23, x19, #4
.LBB34_3:
	ldr	x8, [x19, #1160]
	cbnz	x8, .LBB34_17
	ldr	x8, [x19, #1032]
	add	x24, sp, #64
	mov	w26, #16
	b	.LBB34_8
.LBB34_5:
	cmp	x27, #1024
	b.lo	.LBB34_63
.LBB34_6:
	ldr	x8, [x19, #1032]
	cmp	x8, #1023
	b.hi	.LBB34_54
.LBB34_7:
	sub	x26, x26, #1
	strb	w25, [x23, x8]
	add	x8, x8, #1
	str	x8, [x19, #1032]
	cbz	x26, .LBB34_18
.LBB34_8:
	ldrb	w25, [x24], #1
	cmp	x8, #1024
	b.lo	.LBB34_7
	str	xzr, [x19, #1032]
	b.ne	.LBB34_54
	ldr	w21, [x19]
	mov	x27, xzr
	mov	w28, #1088
	b	.LBB34_13
.LBB34_11:
	bl	rattle_errno
	cmp	w0, #4
	b.ne	.LBB34_52
	subs	x28, x28, #1
	b.eq	.LBB34_5
.LBB34_13:
	cmp	x27, #1024
	b.hs	.LBB34_6
	mov	w8, #1024
	add	x1, x23, x27
	mov	w0, w21
	sub	x22, x8, x27
	mov	x2, x22
	bl	write
	tbnz	x0, #63, .LBB34_11
	cbz	x0, .LBB34_51
	cmp	x0, x22
	csel	x8, x0, x22, lo
	add	x27, x8, x27
	subs	x28, x28, #1
	b.ne	.LBB34_13
	b	.LBB34_5
.LBB34_17:
	add	x1, sp, #64
	mov	x0, x19
	mov	w2, #16
	bl	"core::fmt::formatter::Formatter::write_indented::<#bf264aed5fa78656>"
	and	w8, w0, #0xff
	tbnz	w8, #0, .LBB34_54
.LBB34_18:
	sub	x20, x20, #16
	cmp	x20, #16
	b.hi	.LBB34_3
.LBB34_19:
	ldr	x8, [x19, #1160]
	cbnz	x8, .LBB34_62
	ldr	x8, [x19, #1032]
	add	x21, x19, #4
	add	x22, sp, #64
	b	.LBB34_22
.LBB34_21:
	sub	x20, x20, #1
	strb	w23, [x21, x8]
	add	x8, x8, #1
	str	x8, [x19, #1032]
	cbz	x20, .LBB34_61
.LBB34_22:
	ldrb	w23, [x22], #1
	cmp	x8, #1024
	b.lo	.LBB34_21
	mov	x0, x19
	bl	"std_io::io::buffer::Buffer::flush"
	cbz	w0, .LBB34_54
	ldr	x8, [x19, #1032]
	cmp	x8, #1023
	b.ls	.LBB34_21
	b	.LBB34_54
.LBB34_25:
	cmp	w1, #2047
	str	wzr, [sp, #60]
	b.hi	.LBB34_27
	lsr	w8, w1, #6
	mov	w9, #128
	mov	w2, #2
	bfxil	w9, w1, #0, #6
	orr	w8, w8, #0xc0
	strb	w8, [sp, #60]
	strb	w9, [sp, #61]
	add	x0, sp, #32
	add	x1, sp, #60
	bl	"core::str::utf8::from_utf8"
	ldrb	w8, [sp, #32]
	cbnz	w8, .LBB34_54
	b	.LBB34_33
.LBB34_27:
	lsr	w8, w1, #11
	cmp	w8, #27
	b.lo	.LBB34_30
	sub	w8, w1, #14, lsl #12
	cmp	w8, #258, lsl #12
	b.lo	.LBB34_30
	mov	w8, #49135
	mov	w9, #189
	mov	w2, #3
	strh	w8, [sp, #60]
	strb	w9, [sp, #62]
	add	x0, sp, #32
	add	x1, sp, #60
	bl	"core::str::utf8::from_utf8"
	ldrb	w8, [sp, #32]
	cbnz	w8, .LBB34_54
	b	.LBB34_33
.LBB34_30:
	lsr	w8, w1, #16
	cbnz	w8, .LBB34_32
	lsr	w8, w1, #12
	mov	w9, #128
	mov	w10, #128
	bfxil	w9, w1, #6, #6
	bfxil	w10, w1, #0, #6
	mov	w2, #3
	orr	w8, w8, #0xe0
	strb	w8, [sp, #60]
	strb	w9, [sp, #61]
	strb	w10, [sp, #62]
	add	x0, sp, #32
	add	x1, sp, #60
	bl	"core::str::utf8::from_utf8"
	ldrb	w8, [sp, #32]
	cbnz	w8, .LBB34_54
	b	.LBB34_33
.LBB34_32:
	dup	v0.4s, w1
	adrp	x8, .LCPI34_0
	mov	w2, #4
	ldr	q1, [x8, :lo12:.LCPI34_0]
	adrp	x8, .LCPI34_1
	ushl	v0.4s, v0.4s, v1.4s
	ldr	d1, [x8, :lo12:.LCPI34_1]
	adrp	x8, .LCPI34_2
	xtn	v0.4h, v0.4s
	and	v0.8b, v0.8b, v1.8b
	ldr	d1, [x8, :lo12:.LCPI34_2]
	orr	v0.8b, v0.8b, v1.8b
	uzp1	v0.8b, v0.8b, v0.8b
	str	s0, [sp, #60]
	add	x0, sp, #32
	add	x1, sp, #60
	bl	"core::str::utf8::from_utf8"
	ldrb	w8, [sp, #32]
	cbnz	w8, .LBB34_54
.LBB34_33:
	ldp	x21, x2, [sp, #40]
	cbz	x2, .LBB34_56
	mov	x8, xzr
	add	x27, x19, #4
	stp	x2, x21, [sp, #8]
.LBB34_35:
	str	x8, [sp, #24]
	ldr	x8, [x19, #1160]
	cbnz	x8, .LBB34_49
	ldr	x8, [x19, #1032]
	mov	x28, x2
	b	.LBB34_40
.LBB34_37:
	cmp	x25, #1024
	b.lo	.LBB34_63
.LBB34_38:
	ldr	x8, [x19, #1032]
	cmp	x8, #1023
	b.hi	.LBB34_54
.LBB34_39:
	sub	x28, x28, #1
	strb	w26, [x27, x8]
	add	x8, x8, #1
	str	x8, [x19, #1032]
	cbz	x28, .LBB34_50
.LBB34_40:
	ldrb	w26, [x21], #1
	cmp	x8, #1024
	b.lo	.LBB34_39
	str	xzr, [x19, #1032]
	b.ne	.LBB34_54
	ldr	w23, [x19]
	mov	x25, xzr
	mov	w22, #1088
	b	.LBB34_45
.LBB34_43:
	bl	rattle_errno
	cmp	w0, #4
	b.ne	.LBB34_52
	subs	x22, x22, #1
	b.eq	.LBB34_37
.LBB34_45:
	cmp	x25, #1024
	b.hs	.LBB34_38
	mov	w8, #1024
	add	x1, x27, x25
	mov	w0, w23
	sub	x24, x8, x25
	mov	x2, x24
	bl	write
	tbnz	x0, #63, .LBB34_43
	cbz	x0, .LBB34_51
	cmp	x0, x24
	csel	x8, x0, x24, lo
	add	x25, x8, x25
	subs	x22, x22, #1
	b.ne	.LBB34_45
	b	.LBB34_37
.LBB34_49:
	mov	x0, x19
	mov	x1, x21
	bl	"core::fmt::formatter::Formatter::write_indented::<#bf264aed5fa78656>"
	and	w8, w0, #0xff
	tbnz	w8, #0, .LBB34_54
.LBB34_50:
	ldp	x21, x8, [sp, #16]
	mov	w0, wzr
	ldr	x2, [sp, #8]
	add	x8, x8, #1
	cmp	x8, x20
	b.ne	.LBB34_35
	b	.LBB34_55
.LBB34_51:
	movi	v3.16b, #46
	adrp	x9, .LCPI34_3
	adrp	x10, .LCPI34_4
	adrp	x11, .LCPI34_5
	ldr	q1, [x9, :lo12:.LCPI34_3]
	ldr	q0, [x10, :lo12:.LCPI34_4]
	ldr	d2, [x11, :lo12:.LCPI34_5]
	mov	w8, wzr
	stp	q3, q3, [sp, #96]
	str	q3, [sp, #80]
	b	.LBB34_53
.LBB34_52:
	mov	w1, w0
	sub	x0, x29, #104
	bl	"std_io::io::error::Error::from_raw_os_error"
	sub	x9, x29, #104
	ldur	s0, [x29, #-104]
	ldur	w8, [x29, #-100]
	ldur	q1, [x9, #40]
	ldur	q3, [x9, #56]
	ldur	q4, [x9, #72]
	ushll	v2.8h, v0.8b, #0
	ldur	q0, [x29, #-96]
	stp	q1, q3, [sp, #80]
	ldur	q1, [x9, #24]
	str	q4, [sp, #112]
.LBB34_53:
	uzp1	v2.8b, v2.8b, v0.8b
	str	q0, [x19, #1056]
	str	q1, [x19, #1072]
	ldp	q0, q1, [sp, #80]
	str	w8, [x19, #1052]
	mov	w8, #1
	str	x8, [x19, #1040]
	str	q0, [x19, #1088]
	ldr	q0, [sp, #112]
	str	s2, [x19, #1048]
	str	q1, [x19, #1104]
	str	q0, [x19, #1120]
.LBB34_54:
	mov	w0, #1
.LBB34_55:
	ldp	x20, x19, [sp, #320]
	ldp	x22, x21, [sp, #304]
	ldp	x24, x23, [sp, #288]
	ldp	x26, x25, [sp, #272]
	ldp	x28, x27, [sp, #256]
	ldp	x29, x30, [sp, #240]
	add	sp, sp, #336
	ret
.LBB34_56:
	ldr	x8, [x19, #1160]
	cbz	x8, .LBB34_61
	sub	x20, x20, #1
	mov	w8, #1
	cbz	x8, .LBB34_60
	b	.LBB34_59
.LBB34_58:
	ldr	x8, [x19, #1160]
	sub	x20, x20, #1
	cbz	x8, .LBB34_60
.LBB34_59:
	mov	x0, x19
	mov	x1, x21
	mov	x2, xzr
	bl	"core::fmt::formatter::Formatter::write_indented::<#bf264aed5fa78656>"
	and	w8, w0, #0xff
	tbnz	w8, #0, .LBB34_54
.LBB34_60:
	cbnz	x20, .LBB34_58
.LBB34_61:
	mov	w0, wzr
	b	.LBB34_55
.LBB34_62:
	add	x1, sp, #64
	mov	x0, x19
	mov	x2, x20
	bl	"core::fmt::formatter::Formatter::write_indented::<#bf264aed5fa78656>"
	and	w0, w0, #0xff
	b	.LBB34_55
.LBB34_63:
	movi	v0.2d, #0000000000000000
	movi	v1.2d, #0000000000000000
	adrp	x8, .LCPI34_6
	ldr	d2, [x8, :lo12:.LCPI34_6]
	mov	w8, #4
	stp	q0, q0, [sp, #96]
	str	q0, [sp, #80]
	b	.LBB34_53
.Lfunc_end34:
	.size	"core::fmt::formatter::Formatter::write_char_n_times::<#bf264aed5fa78656>", .Lfunc_end34-"core::fmt::formatter::Formatter::write_char_n_times::<#bf264aed5fa78656>"

	.section	".text.std_io::io::kind::ErrorKindDisplay::fmt::<#bf264aed5fa78656>","ax",@progbits
	.p2align	2
	.type	"std_io::io::kind::ErrorKindDisplay::fmt::<#bf264aed5fa78656>",@function
"std_io::io::kind::ErrorKindDisplay::fmt::<#bf264aed5fa78656>":
	stp	x29, x30, [sp, #-48]!
	and	x9, x0, #0xff
	adrp	x10, .LJTI35_0
	add	x10, x10, :lo12:.LJTI35_0
	stp	x22, x21, [sp, #16]
	ldr	x8, [x1, #1160]
	mov	x29, sp
	stp	x20, x19, [sp, #32]
	adr	x11, .LBB35_1
	ldrh	w12, [x10, x9, lsl #1]
	add	x11, x11, x12, lsl #2
	mov	x19, x1
	br	x11
.LBB35_1:
	cbnz	x8, .LBB35_1834
	ldr	x9, [x19, #1032]
	cmp	x9, #1024
	b.lo	.LBB35_296
	mov	x0, x19
	bl	"std_io::io::buffer::Buffer::flush"
	cbz	w0, .LBB35_451
	ldr	x9, [x19, #1032]
	cmp	x9, #1023
	b.ls	.LBB35_296
	mov	w0, #1
.LBB35_6:
	ldp	x20, x19, [sp, #32]
	ldp	x22, x21, [sp, #16]
	ldp	x29, x30, [sp], #48
	ret
.LBB35_7:
	cbnz	x8, .LBB35_1815
	ldr	x9, [x19, #1032]
	cmp	x9, #1024
	b.lo	.LBB35_224
	mov	x0, x19
	bl	"std_io::io::buffer::Buffer::flush"
	cbz	w0, .LBB35_451
	ldr	x9, [x19, #1032]
	cmp	x9, #1023
	b.ls	.LBB35_224
	mov	w0, #1
	ldp	x20, x19, [sp, #32]
	ldp	x22, x21, [sp, #16]
	ldp	x29, x30, [sp], #48
	ret
.LBB35_12:
	cbnz	x8, .LBB35_1816
	ldr	x9, [x19, #1032]
	cmp	x9, #1024
	b.lo	.LBB35_228
	mov	x0, x19
	bl	"std_io::io::buffer::Buffer::flush"
	cbz	w0, .LBB35_451
	ldr	x9, [x19, #1032]
	cmp	x9, #1023
	b.ls	.LBB35_228
	mov	w0, #1
	ldp	x20, x19, [sp, #32]
	ldp	x22, x21, [sp, #16]
	ldp	x29, x30, [sp], #48
	ret
.LBB35_17:
	cbnz	x8, .LBB35_1817
	ldr	x9, [x19, #1032]
	cmp	x9, #1024
	b.lo	.LBB35_232
	mov	x0, x19
	bl	"std_io::io::buffer::Buffer::flush"
	cbz	w0, .LBB35_451
	ldr	x9, [x19, #1032]
	cmp	x9, #1023
	b.ls	.LBB35_232
	mov	w0, #1
	ldp	x20, x19, [sp, #32]
	ldp	x22, x21, [sp, #16]
	ldp	x29, x30, [sp], #48
	ret
.LBB35_22:
	cbnz	x8, .LBB35_1818
	ldr	x9, [x19, #1032]
	cmp	x9, #1024
	b.lo	.LBB35_236
	mov	x0, x19
	bl	"std_io::io::buffer::Buffer::flush"
	cbz	w0, .LBB35_451
	ldr	x9, [x19, #1032]
	cmp	x9, #1023
	b.ls	.LBB35_236
	mov	w0, #1
	ldp	x20, x19, [sp, #32]
	ldp	x22, x21, [sp, #16]
	ldp	x29, x30, [sp], #48
	ret
.LBB35_27:
	cbnz	x8, .LBB35_1819
	ldr	x9, [x19, #1032]
	cmp	x9, #1024
	b.lo	.LBB35_240
	mov	x0, x19
	bl	"std_io::io::buffer::Buffer::flush"
	cbz	w0, .LBB35_451
	ldr	x9, [x19, #1032]
	cmp	x9, #1023
	b.ls	.LBB35_240
	mov	w0, #1
	ldp	x20, x19, [sp, #32]
	ldp	x22, x21, [sp, #16]
	ldp	x29, x30, [sp], #48
	ret
.LBB35_32:
	cbnz	x8, .LBB35_1820
	ldr	x9, [x19, #1032]
	cmp	x9, #1024
	b.lo	.LBB35_244
	mov	x0, x19
	bl	"std_io::io::buffer::Buffer::flush"
	cbz	w0, .LBB35_451
	ldr	x9, [x19, #1032]
	cmp	x9, #1023
	b.ls	.LBB35_244
	mov	w0, #1
	ldp	x20, x19, [sp, #32]
	ldp	x22, x21, [sp, #16]
	ldp	x29, x30, [sp], #48
	ret
.LBB35_37:
	cbnz	x8, .LBB35_1821
	ldr	x9, [x19, #1032]
	cmp	x9, #1024
	b.lo	.LBB35_248
	mov	x0, x19
	bl	"std_io::io::buffer::Buffer::flush"
	cbz	w0, .LBB35_451
	ldr	x9, [x19, #1032]
	cmp	x9, #1023
	b.ls	.LBB35_248
	mov	w0, #1
	ldp	x20, x19, [sp, #32]
	ldp	x22, x21, [sp, #16]
	ldp	x29, x30, [sp], #48
	ret
.LBB35_42:
	cbnz	x8, .LBB35_1822
	ldr	x9, [x19, #1032]
	cmp	x9, #1024
	b.lo	.LBB35_252
	mov	x0, x19
	bl	"std_io::io::buffer::Buffer::flush"
	cbz	w0, .LBB35_451
	ldr	x9, [x19, #1032]
	cmp	x9, #1023
	b.ls	.LBB35_252
	mov	w0, #1
	ldp	x20, x19, [sp, #32]
	ldp	x22, x21, [sp, #16]
	ldp	x29, x30, [sp], #48
	ret
.LBB35_47:
	cbnz	x8, .LBB35_1823
	ldr	x9, [x19, #1032]
	cmp	x9, #1024
	b.lo	.LBB35_256
	mov	x0, x19
	bl	"std_io::io::buffer::Buffer::flush"
	cbz	w0, .LBB35_451
	ldr	x9, [x19, #1032]
	cmp	x9, #1023
	b.ls	.LBB35_256
	mov	w0, #1
	ldp	x20, x19, [sp, #32]
	ldp	x22, x21, [sp, #16]
	ldp	x29, x30, [sp], #48
	ret
.LBB35_52:
	cbnz	x8, .LBB35_1824
	ldr	x9, [x19, #1032]
	cmp	x9, #1024
	b.lo	.LBB35_260
	mov	x0, x19
	bl	"std_io::io::buffer::Buffer::flush"
	cbz	w0, .LBB35_451
	ldr	x9, [x19, #1032]
	cmp	x9, #1023
	b.ls	.LBB35_260
	mov	w0, #1
	ldp	x20, x19, [sp, #32]
	ldp	x22, x21, [sp, #16]
	ldp	x29, x30, [sp], #48
	ret
.LBB35_57:
	cbnz	x8, .LBB35_1825
	ldr	x9, [x19, #1032]
	cmp	x9, #1024
	b.lo	.LBB35_264
	mov	x0, x19
	bl	"std_io::io::buffer::Buffer::flush"
	cbz	w0, .LBB35_451
	ldr	x9, [x19, #1032]
	cmp	x9, #1023
	b.ls	.LBB35_264
	mov	w0, #1
	ldp	x20, x19, [sp, #32]
	ldp	x22, x21, [sp, #16]
	ldp	x29, x30, [sp], #48
	ret
.LBB35_62:
	cbnz	x8, .LBB35_1826
	ldr	x9, [x19, #1032]
	cmp	x9, #1024
	b.lo	.LBB35_268
	mov	x0, x19
	bl	"std_io::io::buffer::Buffer::flush"
	cbz	w0, .LBB35_451
	ldr	x9, [x19, #1032]
	cmp	x9, #1023
	b.ls	.LBB35_268
	mov	w0, #1
	ldp	x20, x19, [sp, #32]
	ldp	x22, x21, [sp, #16]
	ldp	x29, x30, [sp], #48
	ret
.LBB35_67:
	cbnz	x8, .LBB35_1827
	ldr	x9, [x19, #1032]
	cmp	x9, #1024
	b.lo	.LBB35_272
	mov	x0, x19
	bl	"std_io::io::buffer::Buffer::flush"
	cbz	w0, .LBB35_451
	ldr	x9, [x19, #1032]
	cmp	x9, #1023
	b.ls	.LBB35_272
	mov	w0, #1
	ldp	x20, x19, [sp, #32]
	ldp	x22, x21, [sp, #16]
	ldp	x29, x30, [sp], #48
	ret
.LBB35_72:
	cbnz	x8, .LBB35_1828
	ldr	x8, [x19, #1032]
	mov	x20, xzr
	add	x21, x19, #4
	b	.LBB35_75
.LBB35_74:
	add	x20, x20, #1
	mov	w0, wzr
	strb	w22, [x21, x8]
	add	x8, x8, #1
	cmp	x20, #23
	str	x8, [x19, #1032]
	b.eq	.LBB35_6
.LBB35_75:
	adrp	x9, .Lstatic.143
	add	x9, x9, :lo12:.Lstatic.143
	cmp	x8, #1024
	ldrb	w22, [x9, x20]
	b.lo	.LBB35_74
	mov	x0, x19
	bl	"std_io::io::buffer::Buffer::flush"
	cbz	w0, .LBB35_451
	ldr	x8, [x19, #1032]
	cmp	x8, #1023
	b.ls	.LBB35_74
	mov	w0, #1
	ldp	x20, x19, [sp, #32]
	ldp	x22, x21, [sp, #16]
	ldp	x29, x30, [sp], #48
	ret
.LBB35_79:
	cbnz	x8, .LBB35_1829
	ldr	x9, [x19, #1032]
	cmp	x9, #1024
	b.lo	.LBB35_276
	mov	x0, x19
	bl	"std_io::io::buffer::Buffer::flush"
	cbz	w0, .LBB35_451
	ldr	x9, [x19, #1032]
	cmp	x9, #1023
	b.ls	.LBB35_276
	mov	w0, #1
	ldp	x20, x19, [sp, #32]
	ldp	x22, x21, [sp, #16]
	ldp	x29, x30, [sp], #48
	ret
.LBB35_84:
	cbnz	x8, .LBB35_1830
	ldr	x9, [x19, #1032]
	cmp	x9, #1024
	b.lo	.LBB35_280
	mov	x0, x19
	bl	"std_io::io::buffer::Buffer::flush"
	cbz	w0, .LBB35_451
	ldr	x9, [x19, #1032]
	cmp	x9, #1023
	b.ls	.LBB35_280
	mov	w0, #1
	ldp	x20, x19, [sp, #32]
	ldp	x22, x21, [sp, #16]
	ldp	x29, x30, [sp], #48
	ret
.LBB35_89:
	cbnz	x8, .LBB35_1831
	ldr	x9, [x19, #1032]
	cmp	x9, #1024
	b.lo	.LBB35_284
	mov	x0, x19
	bl	"std_io::io::buffer::Buffer::flush"
	cbz	w0, .LBB35_451
	ldr	x9, [x19, #1032]
	cmp	x9, #1023
	b.ls	.LBB35_284
	mov	w0, #1
	ldp	x20, x19, [sp, #32]
	ldp	x22, x21, [sp, #16]
	ldp	x29, x30, [sp], #48
	ret
.LBB35_94:
	cbnz	x8, .LBB35_1832
	ldr	x9, [x19, #1032]
	cmp	x9, #1024
	b.lo	.LBB35_288
	mov	x0, x19
	bl	"std_io::io::buffer::Buffer::flush"
	cbz	w0, .LBB35_451
	ldr	x9, [x19, #1032]
	cmp	x9, #1023
	b.ls	.LBB35_288
	mov	w0, #1
	ldp	x20, x19, [sp, #32]
	ldp	x22, x21, [sp, #16]
	ldp	x29, x30, [sp], #48
	ret
.LBB35_99:
	cbnz	x8, .LBB35_1833
	ldr	x9, [x19, #1032]
	cmp	x9, #1024
	b.lo	.LBB35_292
	mov	x0, x19
	bl	"std_io::io::buffer::Buffer::flush"
	cbz	w0, .LBB35_451
	ldr	x9, [x19, #1032]
	cmp	x9, #1023
	b.ls	.LBB35_292
	mov	w0, #1
	ldp	x20, x19, [sp, #32]
	ldp	x22, x21, [sp, #16]
	ldp	x29, x30, [sp], #48
	ret
.LBB35_104:
	cbnz	x8, .LBB35_1835
	ldr	x9, [x19, #1032]
	cmp	x9, #1024
	b.lo	.LBB35_300
	mov	x0, x19
	bl	"std_io::io::buffer::Buffer::flush"
	cbz	w0, .LBB35_451
	ldr	x9, [x19, #1032]
	cmp	x9, #1023
	b.ls	.LBB35_300
	mov	w0, #1
	ldp	x20, x19, [sp, #32]
	ldp	x22, x21, [sp, #16]
	ldp	x29, x30, [sp], #48
	ret
.LBB35_109:
	cbnz	x8, .LBB35_1836
	ldr	x8, [x19, #1032]
	mov	x20, xzr
	add	x21, x19, #4
	b	.LBB35_112
.LBB35_111:
	add	x20, x20, #1
	mov	w0, wzr
	strb	w22, [x21, x8]
	add	x8, x8, #1
	cmp	x20, #27
	str	x8, [x19, #1032]
	b.eq	.LBB35_6
.LBB35_112:
	adrp	x9, .Lstatic.149
	add	x9, x9, :lo12:.Lstatic.149
	cmp	x8, #1024
	ldrb	w22, [x9, x20]
	b.lo	.LBB35_111
	mov	x0, x19
	bl	"std_io::io::buffer::Buffer::flush"
	cbz	w0, .LBB35_451
	ldr	x8, [x19, #1032]
	cmp	x8, #1023
	b.ls	.LBB35_111
	mov	w0, #1
	ldp	x20, x19, [sp, #32]
	ldp	x22, x21, [sp, #16]
	ldp	x29, x30, [sp], #48
	ret
.LBB35_116:
	cbnz	x8, .LBB35_1837
	ldr	x8, [x19, #1032]
	mov	x20, xzr
	add	x21, x19, #4
	b	.LBB35_119
.LBB35_118:
	add	x20, x20, #1
	mov	w0, wzr
	strb	w22, [x21, x8]
	add	x8, x8, #1
	cmp	x20, #38
	str	x8, [x19, #1032]
	b.eq	.LBB35_6
.LBB35_119:
	adrp	x9, .Lstatic.135
	add	x9, x9, :lo12:.Lstatic.135
	cmp	x8, #1024
	ldrb	w22, [x9, x20]
	b.lo	.LBB35_118
	mov	x0, x19
	bl	"std_io::io::buffer::Buffer::flush"
	cbz	w0, .LBB35_451
	ldr	x8, [x19, #1032]
	cmp	x8, #1023
	b.ls	.LBB35_118
	mov	w0, #1
	ldp	x20, x19, [sp, #32]
	ldp	x22, x21, [sp, #16]
	ldp	x29, x30, [sp], #48
	ret
.LBB35_123:
	cbnz	x8, .LBB35_1838
	ldr	x9, [x19, #1032]
	cmp	x9, #1024
	b.lo	.LBB35_304
	mov	x0, x19
	bl	"std_io::io::buffer::Buffer::flush"
	cbz	w0, .LBB35_451
	ldr	x9, [x19, #1032]
	cmp	x9, #1023
	b.ls	.LBB35_304
	mov	w0, #1
	ldp	x20, x19, [sp, #32]
	ldp	x22, x21, [sp, #16]
	ldp	x29, x30, [sp], #48
	ret
.LBB35_128:
	cbnz	x8, .LBB35_1839
	ldr	x8, [x19, #1032]
	mov	x20, xzr
	add	x21, x19, #4
	b	.LBB35_131
.LBB35_130:
	add	x20, x20, #1
	mov	w0, wzr
	strb	w22, [x21, x8]
	add	x8, x8, #1
	cmp	x20, #23
	str	x8, [x19, #1032]
	b.eq	.LBB35_6
.LBB35_131:
	adrp	x9, .Lstatic.138
	add	x9, x9, :lo12:.Lstatic.138
	cmp	x8, #1024
	ldrb	w22, [x9, x20]
	b.lo	.LBB35_130
	mov	x0, x19
	bl	"std_io::io::buffer::Buffer::flush"
	cbz	w0, .LBB35_451
	ldr	x8, [x19, #1032]
	cmp	x8, #1023
	b.ls	.LBB35_130
	mov	w0, #1
	ldp	x20, x19, [sp, #32]
	ldp	x22, x21, [sp, #16]
	ldp	x29, x30, [sp], #48
	ret
.LBB35_135:
	cbnz	x8, .LBB35_1840
	ldr	x9, [x19, #1032]
	cmp	x9, #1024
	b.lo	.LBB35_308
	mov	x0, x19
	bl	"std_io::io::buffer::Buffer::flush"
	cbz	w0, .LBB35_451
	ldr	x9, [x19, #1032]
	cmp	x9, #1023
	b.ls	.LBB35_308
	mov	w0, #1
	ldp	x20, x19, [sp, #32]
	ldp	x22, x21, [sp, #16]
	ldp	x29, x30, [sp], #48
	ret
.LBB35_140:
	cbnz	x8, .LBB35_1841
	ldr	x9, [x19, #1032]
	cmp	x9, #1024
	b.lo	.LBB35_312
	mov	x0, x19
	bl	"std_io::io::buffer::Buffer::flush"
	cbz	w0, .LBB35_451
	ldr	x9, [x19, #1032]
	cmp	x9, #1023
	b.ls	.LBB35_312
	mov	w0, #1
	ldp	x20, x19, [sp, #32]
	ldp	x22, x21, [sp, #16]
	ldp	x29, x30, [sp], #48
	ret
.LBB35_145:
	cbnz	x8, .LBB35_1842
	ldr	x9, [x19, #1032]
	cmp	x9, #1024
	b.lo	.LBB35_316
	mov	x0, x19
	bl	"std_io::io::buffer::Buffer::flush"
	cbz	w0, .LBB35_451
	ldr	x9, [x19, #1032]
	cmp	x9, #1023
	b.ls	.LBB35_316
	mov	w0, #1
	ldp	x20, x19, [sp, #32]
	ldp	x22, x21, [sp, #16]
	ldp	x29, x30, [sp], #48
	ret
.LBB35_150:
	cbnz	x8, .LBB35_1843
	ldr	x9, [x19, #1032]
	cmp	x9, #1024
	b.lo	.LBB35_320
	mov	x0, x19
	bl	"std_io::io::buffer::Buffer::flush"
	cbz	w0, .LBB35_451
	ldr	x9, [x19, #1032]
	cmp	x9, #1023
	b.ls	.LBB35_320
	mov	w0, #1
	ldp	x20, x19, [sp, #32]
	ldp	x22, x21, [sp, #16]
	ldp	x29, x30, [sp], #48
	ret
.LBB35_155:
	cbnz	x8, .LBB35_1844
	ldr	x8, [x19, #1032]
	mov	x20, xzr
	add	x21, x19, #4
	b	.LBB35_158
.LBB35_157:
	add	x20, x20, #1
	mov	w0, wzr
	strb	w22, [x21, x8]
	add	x8, x8, #1
	cmp	x20, #56
	str	x8, [x19, #1032]
	b.eq	.LBB35_6
.LBB35_158:
	adrp	x9, .Lstatic.136
	add	x9, x9, :lo12:.Lstatic.136
	cmp	x8, #1024
	ldrb	w22, [x9, x20]
	b.lo	.LBB35_157
	mov	x0, x19
	bl	"std_io::io::buffer::Buffer::flush"
	cbz	w0, .LBB35_451
	ldr	x8, [x19, #1032]
	cmp	x8, #1023
	b.ls	.LBB35_157
	mov	w0, #1
	ldp	x20, x19, [sp, #32]
	ldp	x22, x21, [sp, #16]
	ldp	x29, x30, [sp], #48
	ret
.LBB35_162:
	cbnz	x8, .LBB35_1845
	ldr	x9, [x19, #1032]
	cmp	x9, #1024
	b.lo	.LBB35_324
	mov	x0, x19
	bl	"std_io::io::buffer::Buffer::flush"
	cbz	w0, .LBB35_451
	ldr	x9, [x19, #1032]
	cmp	x9, #1023
	b.ls	.LBB35_324
	mov	w0, #1
	ldp	x20, x19, [sp, #32]
	ldp	x22, x21, [sp, #16]
	ldp	x29, x30, [sp], #48
	ret
.LBB35_167:
	cbnz	x8, .LBB35_1846
	ldr	x9, [x19, #1032]
	cmp	x9, #1024
	b.lo	.LBB35_328
	mov	x0, x19
	bl	"std_io::io::buffer::Buffer::flush"
	cbz	w0, .LBB35_451
	ldr	x9, [x19, #1032]
	cmp	x9, #1023
	b.ls	.LBB35_328
	mov	w0, #1
	ldp	x20, x19, [sp, #32]
	ldp	x22, x21, [sp, #16]
	ldp	x29, x30, [sp], #48
	ret
.LBB35_172:
	cbnz	x8, .LBB35_1847
	ldr	x9, [x19, #1032]
	cmp	x9, #1024
	b.lo	.LBB35_332
	mov	x0, x19
	bl	"std_io::io::buffer::Buffer::flush"
	cbz	w0, .LBB35_451
	ldr	x9, [x19, #1032]
	cmp	x9, #1023
	b.ls	.LBB35_332
	mov	w0, #1
	ldp	x20, x19, [sp, #32]
	ldp	x22, x21, [sp, #16]
	ldp	x29, x30, [sp], #48
	ret
.LBB35_177:
	cbnz	x8, .LBB35_1848
	ldr	x9, [x19, #1032]
	cmp	x9, #1024
	b.lo	.LBB35_336
	mov	x0, x19
	bl	"std_io::io::buffer::Buffer::flush"
	cbz	w0, .LBB35_451
	ldr	x9, [x19, #1032]
	cmp	x9, #1023
	b.ls	.LBB35_336
	mov	w0, #1
	ldp	x20, x19, [sp, #32]
	ldp	x22, x21, [sp, #16]
	ldp	x29, x30, [sp], #48
	ret
.LBB35_182:
	cbnz	x8, .LBB35_1849
	ldr	x9, [x19, #1032]
	cmp	x9, #1024
	b.lo	.LBB35_340
	mov	x0, x19
	bl	"std_io::io::buffer::Buffer::flush"
	cbz	w0, .LBB35_451
	ldr	x9, [x19, #1032]
	cmp	x9, #1023
	b.ls	.LBB35_340
	mov	w0, #1
	ldp	x20, x19, [sp, #32]
	ldp	x22, x21, [sp, #16]
	ldp	x29, x30, [sp], #48
	ret
.LBB35_187:
	cbnz	x8, .LBB35_1850
	ldr	x9, [x19, #1032]
	cmp	x9, #1024
	b.lo	.LBB35_344
	mov	x0, x19
	bl	"std_io::io::buffer::Buffer::flush"
	cbz	w0, .LBB35_1807
	ldr	x9, [x19, #1032]
	cmp	x9, #1023
	b.ls	.LBB35_344
	mov	w0, #1
	ldp	x20, x19, [sp, #32]
	ldp	x22, x21, [sp, #16]
	ldp	x29, x30, [sp], #48
	ret
.LBB35_192:
	cbnz	x8, .LBB35_1851
	ldr	x8, [x19, #1032]
	mov	x20, xzr
	add	x21, x19, #4
	b	.LBB35_195
.LBB35_194:
	add	x20, x20, #1
	mov	w0, wzr
	strb	w22, [x21, x8]
	add	x8, x8, #1
	cmp	x20, #25
	str	x8, [x19, #1032]
	b.eq	.LBB35_6
.LBB35_195:
	adrp	x9, .Lstatic.137
	add	x9, x9, :lo12:.Lstatic.137
	cmp	x8, #1024
	ldrb	w22, [x9, x20]
	b.lo	.LBB35_194
	mov	x0, x19
	bl	"std_io::io::buffer::Buffer::flush"
	cbz	w0, .LBB35_451
	ldr	x8, [x19, #1032]
	cmp	x8, #1023
	b.ls	.LBB35_194
	mov	w0, #1
	ldp	x20, x19, [sp, #32]
	ldp	x22, x21, [sp, #16]
	ldp	x29, x30, [sp], #48
	ret
.LBB35_199:
	cbnz	x8, .LBB35_1852
	ldr	x9, [x19, #1032]
	cmp	x9, #1024
	b.lo	.LBB35_348
	mov	x0, x19
	bl	"std_io::io::buffer::Buffer::flush"
	cbz	w0, .LBB35_1807
	ldr	x9, [x19, #1032]
	cmp	x9, #1023
	b.ls	.LBB35_348
	mov	w0, #1
	ldp	x20, x19, [sp, #32]
	ldp	x22, x21, [sp, #16]
	ldp	x29, x30, [sp], #48
	ret
.LBB35_204:
	cbnz	x8, .LBB35_1853
	ldr	x9, [x19, #1032]
	cmp	x9, #1024
	b.lo	.LBB35_352
	mov	x0, x19
	bl	"std_io::io::buffer::Buffer::flush"
	cbz	w0, .LBB35_1807
	ldr	x9, [x19, #1032]
	cmp	x9, #1023
	b.ls	.LBB35_352
	mov	w0, #1
	ldp	x20, x19, [sp, #32]
	ldp	x22, x21, [sp, #16]
	ldp	x29, x30, [sp], #48
	ret
.LBB35_209:
	cbnz	x8, .LBB35_1854
	ldr	x9, [x19, #1032]
	cmp	x9, #1024
	b.lo	.LBB35_356
	mov	x0, x19
	bl	"std_io::io::buffer::Buffer::flush"
	cbz	w0, .LBB35_1807
	ldr	x9, [x19, #1032]
	cmp	x9, #1023
	b.ls	.LBB35_356
	mov	w0, #1
	ldp	x20, x19, [sp, #32]
	ldp	x22, x21, [sp, #16]
	ldp	x29, x30, [sp], #48
	ret
.LBB35_214:
	cbnz	x8, .LBB35_1855
	ldr	x9, [x19, #1032]
	cmp	x9, #1024
	b.lo	.LBB35_360
	mov	x0, x19
	bl	"std_io::io::buffer::Buffer::flush"
	cbz	w0, .LBB35_1807
	ldr	x9, [x19, #1032]
	cmp	x9, #1023
	b.ls	.LBB35_360
	mov	w0, #1
	ldp	x20, x19, [sp, #32]
	ldp	x22, x21, [sp, #16]
	ldp	x29, x30, [sp], #48
	ret
.LBB35_219:
	cbnz	x8, .LBB35_1856
	ldr	x9, [x19, #1032]
	cmp	x9, #1024
	b.lo	.LBB35_364
	mov	x0, x19
	bl	"std_io::io::buffer::Buffer::flush"
	cbz	w0, .LBB35_1807
	ldr	x9, [x19, #1032]
	cmp	x9, #1023
	b.ls	.LBB35_364
	mov	w0, #1
	ldp	x20, x19, [sp, #32]
	ldp	x22, x21, [sp, #16]
	ldp	x29, x30, [sp], #48
	ret
.LBB35_224:
	add	x20, x19, #4
	add	x8, x9, #1
	cmp	x9, #1023
	mov	w10, #117
	strb	w10, [x20, x9]
	str	x8, [x19, #1032]
	b.ne	.LBB35_368
	mov	x0, x19
	bl	"std_io::io::buffer::Buffer::flush"
	cbz	w0, .LBB35_1807
	ldr	x8, [x19, #1032]
	cmp	x8, #1023
	b.ls	.LBB35_368
	mov	w0, #1
	ldp	x20, x19, [sp, #32]
	ldp	x22, x21, [sp, #16]
	ldp	x29, x30, [sp], #48
	ret
.LBB35_228:
	add	x20, x19, #4
	add	x8, x9, #1
	cmp	x9, #1023
	mov	w10, #111
	strb	w10, [x20, x9]
	str	x8, [x19, #1032]
	b.ne	.LBB35_372
	mov	x0, x19
	bl	"std_io::io::buffer::Buffer::flush"
	cbz	w0, .LBB35_1807
	ldr	x8, [x19, #1032]
	cmp	x8, #1023
	b.ls	.LBB35_372
	mov	w0, #1
	ldp	x20, x19, [sp, #32]
	ldp	x22, x21, [sp, #16]
	ldp	x29, x30, [sp], #48
	ret
.LBB35_232:
	add	x20, x19, #4
	add	x8, x9, #1
	cmp	x9, #1023
	mov	w10, #117
	strb	w10, [x20, x9]
	str	x8, [x19, #1032]
	b.ne	.LBB35_376
	mov	x0, x19
	bl	"std_io::io::buffer::Buffer::flush"
	cbz	w0, .LBB35_1807
	ldr	x8, [x19, #1032]
	cmp	x8, #1023
	b.ls	.LBB35_376
	mov	w0, #1
	ldp	x20, x19, [sp, #32]
	ldp	x22, x21, [sp, #16]
	ldp	x29, x30, [sp], #48
	ret
.LBB35_236:
	add	x20, x19, #4
	add	x8, x9, #1
	cmp	x9, #1023
	mov	w10, #102
	strb	w10, [x20, x9]
	str	x8, [x19, #1032]
	b.ne	.LBB35_380
	mov	x0, x19
	bl	"std_io::io::buffer::Buffer::flush"
	cbz	w0, .LBB35_1807
	ldr	x8, [x19, #1032]
	cmp	x8, #1023
	b.ls	.LBB35_380
	mov	w0, #1
	ldp	x20, x19, [sp, #32]
	ldp	x22, x21, [sp, #16]
	ldp	x29, x30, [sp], #48
	ret
.LBB35_240:
	add	x20, x19, #4
	add	x8, x9, #1
	cmp	x9, #1023
	mov	w10, #97
	strb	w10, [x20, x9]
	str	x8, [x19, #1032]
	b.ne	.LBB35_384
	mov	x0, x19
	bl	"std_io::io::buffer::Buffer::flush"
	cbz	w0, .LBB35_1807
	ldr	x8, [x19, #1032]
	cmp	x8, #1023
	b.ls	.LBB35_384
	mov	w0, #1
	ldp	x20, x19, [sp, #32]
	ldp	x22, x21, [sp, #16]
	ldp	x29, x30, [sp], #48
	ret
.LBB35_244:
	add	x20, x19, #4
	add	x8, x9, #1
	cmp	x9, #1023
	mov	w10, #100
	strb	w10, [x20, x9]
	str	x8, [x19, #1032]
	b.ne	.LBB35_388
	mov	x0, x19
	bl	"std_io::io::buffer::Buffer::flush"
	cbz	w0, .LBB35_1807
	ldr	x8, [x19, #1032]
	cmp	x8, #1023
	b.ls	.LBB35_388
	mov	w0, #1
	ldp	x20, x19, [sp, #32]
	ldp	x22, x21, [sp, #16]
	ldp	x29, x30, [sp], #48
	ret
.LBB35_248:
	add	x20, x19, #4
	add	x8, x9, #1
	cmp	x9, #1023
	mov	w10, #110
	strb	w10, [x20, x9]
	str	x8, [x19, #1032]
	b.ne	.LBB35_392
	mov	x0, x19
	bl	"std_io::io::buffer::Buffer::flush"
	cbz	w0, .LBB35_1807
	ldr	x8, [x19, #1032]
	cmp	x8, #1023
	b.ls	.LBB35_392
	mov	w0, #1
	ldp	x20, x19, [sp, #32]
	ldp	x22, x21, [sp, #16]
	ldp	x29, x30, [sp], #48
	ret
.LBB35_252:
	add	x20, x19, #4
	add	x8, x9, #1
	cmp	x9, #1023
	mov	w10, #105
	strb	w10, [x20, x9]
	str	x8, [x19, #1032]
	b.ne	.LBB35_396
	mov	x0, x19
	bl	"std_io::io::buffer::Buffer::flush"
	cbz	w0, .LBB35_1807
	ldr	x8, [x19, #1032]
	cmp	x8, #1023
	b.ls	.LBB35_396
	mov	w0, #1
	ldp	x20, x19, [sp, #32]
	ldp	x22, x21, [sp, #16]
	ldp	x29, x30, [sp], #48
	ret
.LBB35_256:
	add	x20, x19, #4
	add	x8, x9, #1
	cmp	x9, #1023
	mov	w10, #98
	strb	w10, [x20, x9]
	str	x8, [x19, #1032]
	b.ne	.LBB35_400
	mov	x0, x19
	bl	"std_io::io::buffer::Buffer::flush"
	cbz	w0, .LBB35_1807
	ldr	x8, [x19, #1032]
	cmp	x8, #1023
	b.ls	.LBB35_400
	mov	w0, #1
	ldp	x20, x19, [sp, #32]
	ldp	x22, x21, [sp, #16]
	ldp	x29, x30, [sp], #48
	ret
.LBB35_260:
	add	x20, x19, #4
	add	x8, x9, #1
	cmp	x9, #1023
	mov	w10, #104
	strb	w10, [x20, x9]
	str	x8, [x19, #1032]
	b.ne	.LBB35_404
	mov	x0, x19
	bl	"std_io::io::buffer::Buffer::flush"
	cbz	w0, .LBB35_1807
	ldr	x8, [x19, #1032]
	cmp	x8, #1023
	b.ls	.LBB35_404
	mov	w0, #1
	ldp	x20, x19, [sp, #32]
	ldp	x22, x21, [sp, #16]
	ldp	x29, x30, [sp], #48
	ret
.LBB35_264:
	add	x20, x19, #4
	add	x8, x9, #1
	cmp	x9, #1023
	mov	w10, #111
	strb	w10, [x20, x9]
	str	x8, [x19, #1032]
	b.ne	.LBB35_408
	mov	x0, x19
	bl	"std_io::io::buffer::Buffer::flush"
	cbz	w0, .LBB35_1807
	ldr	x8, [x19, #1032]
	cmp	x8, #1023
	b.ls	.LBB35_408
	mov	w0, #1
	ldp	x20, x19, [sp, #32]
	ldp	x22, x21, [sp, #16]
	ldp	x29, x30, [sp], #48
	ret
.LBB35_268:
	add	x20, x19, #4
	add	x8, x9, #1
	cmp	x9, #1023
	mov	w10, #101
	strb	w10, [x20, x9]
	str	x8, [x19, #1032]
	b.ne	.LBB35_412
	mov	x0, x19
	bl	"std_io::io::buffer::Buffer::flush"
	cbz	w0, .LBB35_1807
	ldr	x8, [x19, #1032]
	cmp	x8, #1023
	b.ls	.LBB35_412
	mov	w0, #1
	ldp	x20, x19, [sp, #32]
	ldp	x22, x21, [sp, #16]
	ldp	x29, x30, [sp], #48
	ret
.LBB35_272:
	add	x20, x19, #4
	add	x8, x9, #1
	cmp	x9, #1023
	mov	w10, #97
	strb	w10, [x20, x9]
	str	x8, [x19, #1032]
	b.ne	.LBB35_416
	mov	x0, x19
	bl	"std_io::io::buffer::Buffer::flush"
	cbz	w0, .LBB35_1807
	ldr	x8, [x19, #1032]
	cmp	x8, #1023
	b.ls	.LBB35_416
	mov	w0, #1
	ldp	x20, x19, [sp, #32]
	ldp	x22, x21, [sp, #16]
	ldp	x29, x30, [sp], #48
	ret
.LBB35_276:
	add	x20, x19, #4
	add	x8, x9, #1
	cmp	x9, #1023
	mov	w10, #110
	strb	w10, [x20, x9]
	str	x8, [x19, #1032]
	b.ne	.LBB35_420
	mov	x0, x19
	bl	"std_io::io::buffer::Buffer::flush"
	cbz	w0, .LBB35_1807
	ldr	x8, [x19, #1032]
	cmp	x8, #1023
	b.ls	.LBB35_420
	mov	w0, #1
	ldp	x20, x19, [sp, #32]
	ldp	x22, x21, [sp, #16]
	ldp	x29, x30, [sp], #48
	ret
.LBB35_280:
	add	x20, x19, #4
	add	x8, x9, #1
	cmp	x9, #1023
	mov	w10, #99
	strb	w10, [x20, x9]
	str	x8, [x19, #1032]
	b.ne	.LBB35_424
	mov	x0, x19
	bl	"std_io::io::buffer::Buffer::flush"
	cbz	w0, .LBB35_1807
	ldr	x8, [x19, #1032]
	cmp	x8, #1023
	b.ls	.LBB35_424
	mov	w0, #1
	ldp	x20, x19, [sp, #32]
	ldp	x22, x21, [sp, #16]
	ldp	x29, x30, [sp], #48
	ret
.LBB35_284:
	add	x20, x19, #4
	add	x8, x9, #1
	cmp	x9, #1023
	mov	w10, #105
	strb	w10, [x20, x9]
	str	x8, [x19, #1032]
	b.ne	.LBB35_428
	mov	x0, x19
	bl	"std_io::io::buffer::Buffer::flush"
	cbz	w0, .LBB35_1807
	ldr	x8, [x19, #1032]
	cmp	x8, #1023
	b.ls	.LBB35_428
	mov	w0, #1
	ldp	x20, x19, [sp, #32]
	ldp	x22, x21, [sp, #16]
	ldp	x29, x30, [sp], #48
	ret
.LBB35_288:
	add	x20, x19, #4
	add	x8, x9, #1
	cmp	x9, #1023
	mov	w10, #99
	strb	w10, [x20, x9]
	str	x8, [x19, #1032]
	b.ne	.LBB35_432
	mov	x0, x19
	bl	"std_io::io::buffer::Buffer::flush"
	cbz	w0, .LBB35_1807
	ldr	x8, [x19, #1032]
	cmp	x8, #1023
	b.ls	.LBB35_432
	mov	w0, #1
	ldp	x20, x19, [sp, #32]
	ldp	x22, x21, [sp, #16]
	ldp	x29, x30, [sp], #48
	ret
.LBB35_292:
	add	x20, x19, #4
	add	x8, x9, #1
	cmp	x9, #1023
	mov	w10, #110
	strb	w10, [x20, x9]
	str	x8, [x19, #1032]
	b.ne	.LBB35_436
	mov	x0, x19
	bl	"std_io::io::buffer::Buffer::flush"
	cbz	w0, .LBB35_1807
	ldr	x8, [x19, #1032]
	cmp	x8, #1023
	b.ls	.LBB35_436
	mov	w0, #1
	ldp	x20, x19, [sp, #32]
	ldp	x22, x21, [sp, #16]
	ldp	x29, x30, [sp], #48
	ret
.LBB35_296:
	add	x20, x19, #4
	add	x8, x9, #1
	cmp	x9, #1023
	mov	w10, #101
	strb	w10, [x20, x9]
	str	x8, [x19, #1032]
	b.ne	.LBB35_440
	mov	x0, x19
	bl	"std_io::io::buffer::Buffer::flush"
	cbz	w0, .LBB35_1807
	ldr	x8, [x19, #1032]
	cmp	x8, #1023
	b.ls	.LBB35_440
	mov	w0, #1
	ldp	x20, x19, [sp, #32]
	ldp	x22, x21, [sp, #16]
	ldp	x29, x30, [sp], #48
	ret
.LBB35_300:
	add	x20, x19, #4
	add	x8, x9, #1
	cmp	x9, #1023
	mov	w10, #112
	strb	w10, [x20, x9]
	str	x8, [x19, #1032]
	b.ne	.LBB35_444
	mov	x0, x19
	bl	"std_io::io::buffer::Buffer::flush"
	cbz	w0, .LBB35_1807
	ldr	x8, [x19, #1032]
	cmp	x8, #1023
	b.ls	.LBB35_444
	mov	w0, #1
	ldp	x20, x19, [sp, #32]
	ldp	x22, x21, [sp, #16]
	ldp	x29, x30, [sp], #48
	ret
.LBB35_304:
	add	x20, x19, #4
	add	x8, x9, #1
	cmp	x9, #1023
	mov	w10, #117
	strb	w10, [x20, x9]
	str	x8, [x19, #1032]
	b.ne	.LBB35_448
	mov	x0, x19
	bl	"std_io::io::buffer::Buffer::flush"
	cbz	w0, .LBB35_1807
	ldr	x8, [x19, #1032]
	cmp	x8, #1023
	b.ls	.LBB35_448
	mov	w0, #1
	ldp	x20, x19, [sp, #32]
	ldp	x22, x21, [sp, #16]
	ldp	x29, x30, [sp], #48
	ret
.LBB35_308:
	add	x20, x19, #4
	add	x8, x9, #1
	cmp	x9, #1023
	mov	w10, #110
	strb	w10, [x20, x9]
	str	x8, [x19, #1032]
	b.ne	.LBB35_452
	mov	x0, x19
	bl	"std_io::io::buffer::Buffer::flush"
	cbz	w0, .LBB35_1807
	ldr	x8, [x19, #1032]
	cmp	x8, #1023
	b.ls	.LBB35_452
	mov	w0, #1
	ldp	x20, x19, [sp, #32]
	ldp	x22, x21, [sp, #16]
	ldp	x29, x30, [sp], #48
	ret
.LBB35_312:
	add	x20, x19, #4
	add	x8, x9, #1
	cmp	x9, #1023
	mov	w10, #105
	strb	w10, [x20, x9]
	str	x8, [x19, #1032]
	b.ne	.LBB35_456
	mov	x0, x19
	bl	"std_io::io::buffer::Buffer::flush"
	cbz	w0, .LBB35_1807
	ldr	x8, [x19, #1032]
	cmp	x8, #1023
	b.ls	.LBB35_456
	mov	w0, #1
	ldp	x20, x19, [sp, #32]
	ldp	x22, x21, [sp, #16]
	ldp	x29, x30, [sp], #48
	ret
.LBB35_316:
	add	x20, x19, #4
	add	x8, x9, #1
	cmp	x9, #1023
	mov	w10, #111
	strb	w10, [x20, x9]
	str	x8, [x19, #1032]
	b.ne	.LBB35_460
	mov	x0, x19
	bl	"std_io::io::buffer::Buffer::flush"
	cbz	w0, .LBB35_1807
	ldr	x8, [x19, #1032]
	cmp	x8, #1023
	b.ls	.LBB35_460
	mov	w0, #1
	ldp	x20, x19, [sp, #32]
	ldp	x22, x21, [sp, #16]
	ldp	x29, x30, [sp], #48
	ret
.LBB35_320:
	add	x20, x19, #4
	add	x8, x9, #1
	cmp	x9, #1023
	mov	w10, #99
	strb	w10, [x20, x9]
	str	x8, [x19, #1032]
	b.ne	.LBB35_464
	mov	x0, x19
	bl	"std_io::io::buffer::Buffer::flush"
	cbz	w0, .LBB35_1807
	ldr	x8, [x19, #1032]
	cmp	x8, #1023
	b.ls	.LBB35_464
	mov	w0, #1
	ldp	x20, x19, [sp, #32]
	ldp	x22, x21, [sp, #16]
	ldp	x29, x30, [sp], #48
	ret
.LBB35_324:
	add	x20, x19, #4
	add	x8, x9, #1
	cmp	x9, #1023
	mov	w10, #110
	strb	w10, [x20, x9]
	str	x8, [x19, #1032]
	b.ne	.LBB35_468
	mov	x0, x19
	bl	"std_io::io::buffer::Buffer::flush"
	cbz	w0, .LBB35_1807
	ldr	x8, [x19, #1032]
	cmp	x8, #1023
	b.ls	.LBB35_468
	mov	w0, #1
	ldp	x20, x19, [sp, #32]
	ldp	x22, x21, [sp, #16]
	ldp	x29, x30, [sp], #48
	ret
.LBB35_328:
	add	x20, x19, #4
	add	x8, x9, #1
	cmp	x9, #1023
	mov	w10, #97
	strb	w10, [x20, x9]
	str	x8, [x19, #1032]
	b.ne	.LBB35_472
	mov	x0, x19
	bl	"std_io::io::buffer::Buffer::flush"
	cbz	w0, .LBB35_1807
	ldr	x8, [x19, #1032]
	cmp	x8, #1023
	b.ls	.LBB35_472
	mov	w0, #1
	ldp	x20, x19, [sp, #32]
	ldp	x22, x21, [sp, #16]
	ldp	x29, x30, [sp], #48
	ret
.LBB35_332:
	add	x20, x19, #4
	add	x8, x9, #1
	cmp	x9, #1023
	mov	w10, #100
	strb	w10, [x20, x9]
	str	x8, [x19, #1032]
	b.ne	.LBB35_476
	mov	x0, x19
	bl	"std_io::io::buffer::Buffer::flush"
	cbz	w0, .LBB35_1807
	ldr	x8, [x19, #1032]
	cmp	x8, #1023
	b.ls	.LBB35_476
	mov	w0, #1
	ldp	x20, x19, [sp, #32]
	ldp	x22, x21, [sp, #16]
	ldp	x29, x30, [sp], #48
	ret
.LBB35_336:
	add	x20, x19, #4
	add	x8, x9, #1
	cmp	x9, #1023
	mov	w10, #116
	strb	w10, [x20, x9]
	str	x8, [x19, #1032]
	b.ne	.LBB35_480
	mov	x0, x19
	bl	"std_io::io::buffer::Buffer::flush"
	cbz	w0, .LBB35_1807
	ldr	x8, [x19, #1032]
	cmp	x8, #1023
	b.ls	.LBB35_480
	mov	w0, #1
	ldp	x20, x19, [sp, #32]
	ldp	x22, x21, [sp, #16]
	ldp	x29, x30, [sp], #48
	ret
.LBB35_340:
	add	x20, x19, #4
	add	x8, x9, #1
	cmp	x9, #1023
	mov	w10, #116
	strb	w10, [x20, x9]
	str	x8, [x19, #1032]
	b.ne	.LBB35_484
	mov	x0, x19
	bl	"std_io::io::buffer::Buffer::flush"
	cbz	w0, .LBB35_1807
	ldr	x8, [x19, #1032]
	cmp	x8, #1023
	b.ls	.LBB35_484
	mov	w0, #1
	ldp	x20, x19, [sp, #32]
	ldp	x22, x21, [sp, #16]
	ldp	x29, x30, [sp], #48
	ret
.LBB35_344:
	add	x20, x19, #4
	add	x8, x9, #1
	cmp	x9, #1023
	mov	w10, #105
	strb	w10, [x20, x9]
	str	x8, [x19, #1032]
	b.ne	.LBB35_488
	mov	x0, x19
	bl	"std_io::io::buffer::Buffer::flush"
	cbz	w0, .LBB35_1807
	ldr	x8, [x19, #1032]
	cmp	x8, #1023
	b.ls	.LBB35_488
	mov	w0, #1
	ldp	x20, x19, [sp, #32]
	ldp	x22, x21, [sp, #16]
	ldp	x29, x30, [sp], #48
	ret
.LBB35_348:
	add	x20, x19, #4
	add	x8, x9, #1
	cmp	x9, #1023
	mov	w10, #119
	strb	w10, [x20, x9]
	str	x8, [x19, #1032]
	b.ne	.LBB35_492
	mov	x0, x19
	bl	"std_io::io::buffer::Buffer::flush"
	cbz	w0, .LBB35_1807
	ldr	x8, [x19, #1032]
	cmp	x8, #1023
	b.ls	.LBB35_492
	mov	w0, #1
	ldp	x20, x19, [sp, #32]
	ldp	x22, x21, [sp, #16]
	ldp	x29, x30, [sp], #48
	ret
.LBB35_352:
	add	x20, x19, #4
	add	x8, x9, #1
	cmp	x9, #1023
	mov	w10, #114
	strb	w10, [x20, x9]
	str	x8, [x19, #1032]
	b.ne	.LBB35_496
	mov	x0, x19
	bl	"std_io::io::buffer::Buffer::flush"
	cbz	w0, .LBB35_1807
	ldr	x8, [x19, #1032]
	cmp	x8, #1023
	b.ls	.LBB35_496
	mov	w0, #1
	ldp	x20, x19, [sp, #32]
	ldp	x22, x21, [sp, #16]
	ldp	x29, x30, [sp], #48
	ret
.LBB35_356:
	add	x20, x19, #4
	add	x8, x9, #1
	cmp	x9, #1023
	mov	w10, #101
	strb	w10, [x20, x9]
	str	x8, [x19, #1032]
	b.ne	.LBB35_500
	mov	x0, x19
	bl	"std_io::io::buffer::Buffer::flush"
	cbz	w0, .LBB35_1807
	ldr	x8, [x19, #1032]
	cmp	x8, #1023
	b.ls	.LBB35_500
	mov	w0, #1
	ldp	x20, x19, [sp, #32]
	ldp	x22, x21, [sp, #16]
	ldp	x29, x30, [sp], #48
	ret
.LBB35_360:
	add	x20, x19, #4
	add	x8, x9, #1
	cmp	x9, #1023
	mov	w10, #111
	strb	w10, [x20, x9]
	str	x8, [x19, #1032]
	b.ne	.LBB35_504
	mov	x0, x19
	bl	"std_io::io::buffer::Buffer::flush"
	cbz	w0, .LBB35_1807
	ldr	x8, [x19, #1032]
	cmp	x8, #1023
	b.ls	.LBB35_504
	mov	w0, #1
	ldp	x20, x19, [sp, #32]
	ldp	x22, x21, [sp, #16]
	ldp	x29, x30, [sp], #48
	ret
.LBB35_364:
	add	x20, x19, #4
	add	x8, x9, #1
	cmp	x9, #1023
	mov	w10, #113
	strb	w10, [x20, x9]
	str	x8, [x19, #1032]
	b.ne	.LBB35_508
	mov	x0, x19
	bl	"std_io::io::buffer::Buffer::flush"
	cbz	w0, .LBB35_1807
	ldr	x8, [x19, #1032]
	cmp	x8, #1023
	b.ls	.LBB35_508
	mov	w0, #1
	ldp	x20, x19, [sp, #32]
	ldp	x22, x21, [sp, #16]
	ldp	x29, x30, [sp], #48
	ret
.LBB35_368:
	mov	w9, #110
	strb	w9, [x20, x8]
	cmp	x8, #1023
	add	x9, x8, #1
	str	x9, [x19, #1032]
	b.lo	.LBB35_512
	mov	x0, x19
	bl	"std_io::io::buffer::Buffer::flush"
	cbz	w0, .LBB35_1807
	ldr	x9, [x19, #1032]
	cmp	x9, #1023
	b.ls	.LBB35_512
	mov	w0, #1
	ldp	x20, x19, [sp, #32]
	ldp	x22, x21, [sp, #16]
	ldp	x29, x30, [sp], #48
	ret
.LBB35_372:
	mov	w9, #112
	strb	w9, [x20, x8]
	cmp	x8, #1023
	add	x9, x8, #1
	str	x9, [x19, #1032]
	b.lo	.LBB35_549
	mov	x0, x19
	bl	"std_io::io::buffer::Buffer::flush"
	cbz	w0, .LBB35_1807
	ldr	x9, [x19, #1032]
	cmp	x9, #1023
	b.ls	.LBB35_549
	mov	w0, #1
	ldp	x20, x19, [sp, #32]
	ldp	x22, x21, [sp, #16]
	ldp	x29, x30, [sp], #48
	ret
.LBB35_376:
	mov	w9, #110
	strb	w9, [x20, x8]
	cmp	x8, #1023
	add	x9, x8, #1
	str	x9, [x19, #1032]
	b.lo	.LBB35_603
	mov	x0, x19
	bl	"std_io::io::buffer::Buffer::flush"
	cbz	w0, .LBB35_1807
	ldr	x9, [x19, #1032]
	cmp	x9, #1023
	b.ls	.LBB35_603
	mov	w0, #1
	ldp	x20, x19, [sp, #32]
	ldp	x22, x21, [sp, #16]
	ldp	x29, x30, [sp], #48
	ret
.LBB35_380:
	mov	w9, #105
	strb	w9, [x20, x8]
	cmp	x8, #1023
	add	x9, x8, #1
	str	x9, [x19, #1032]
	b.lo	.LBB35_627
	mov	x0, x19
	bl	"std_io::io::buffer::Buffer::flush"
	cbz	w0, .LBB35_1807
	ldr	x9, [x19, #1032]
	cmp	x9, #1023
	b.ls	.LBB35_627
	mov	w0, #1
	ldp	x20, x19, [sp, #32]
	ldp	x22, x21, [sp, #16]
	ldp	x29, x30, [sp], #48
	ret
.LBB35_384:
	mov	w9, #114
	strb	w9, [x20, x8]
	cmp	x8, #1023
	add	x9, x8, #1
	str	x9, [x19, #1032]
	b.lo	.LBB35_660
	mov	x0, x19
	bl	"std_io::io::buffer::Buffer::flush"
	cbz	w0, .LBB35_1807
	ldr	x9, [x19, #1032]
	cmp	x9, #1023
	b.ls	.LBB35_660
	mov	w0, #1
	ldp	x20, x19, [sp, #32]
	ldp	x22, x21, [sp, #16]
	ldp	x29, x30, [sp], #48
	ret
.LBB35_388:
	mov	w9, #105
	strb	w9, [x20, x8]
	cmp	x8, #1023
	add	x9, x8, #1
	str	x9, [x19, #1032]
	b.lo	.LBB35_718
	mov	x0, x19
	bl	"std_io::io::buffer::Buffer::flush"
	cbz	w0, .LBB35_1807
	ldr	x9, [x19, #1032]
	cmp	x9, #1023
	b.ls	.LBB35_718
	mov	w0, #1
	ldp	x20, x19, [sp, #32]
	ldp	x22, x21, [sp, #16]
	ldp	x29, x30, [sp], #48
	ret
.LBB35_392:
	mov	w9, #111
	strb	w9, [x20, x8]
	cmp	x8, #1023
	add	x9, x8, #1
	str	x9, [x19, #1032]
	b.lo	.LBB35_766
	mov	x0, x19
	bl	"std_io::io::buffer::Buffer::flush"
	cbz	w0, .LBB35_1807
	ldr	x9, [x19, #1032]
	cmp	x9, #1023
	b.ls	.LBB35_766
	mov	w0, #1
	ldp	x20, x19, [sp, #32]
	ldp	x22, x21, [sp, #16]
	ldp	x29, x30, [sp], #48
	ret
.LBB35_396:
	mov	w9, #110
	strb	w9, [x20, x8]
	cmp	x8, #1023
	add	x9, x8, #1
	str	x9, [x19, #1032]
	b.lo	.LBB35_802
	mov	x0, x19
	bl	"std_io::io::buffer::Buffer::flush"
	cbz	w0, .LBB35_1807
	ldr	x9, [x19, #1032]
	cmp	x9, #1023
	b.ls	.LBB35_802
	mov	w0, #1
	ldp	x20, x19, [sp, #32]
	ldp	x22, x21, [sp, #16]
	ldp	x29, x30, [sp], #48
	ret
.LBB35_400:
	mov	w9, #114
	strb	w9, [x20, x8]
	cmp	x8, #1023
	add	x9, x8, #1
	str	x9, [x19, #1032]
	b.lo	.LBB35_839
	mov	x0, x19
	bl	"std_io::io::buffer::Buffer::flush"
	cbz	w0, .LBB35_1807
	ldr	x9, [x19, #1032]
	cmp	x9, #1023
	b.ls	.LBB35_839
	mov	w0, #1
	ldp	x20, x19, [sp, #32]
	ldp	x22, x21, [sp, #16]
	ldp	x29, x30, [sp], #48
	ret
.LBB35_404:
	mov	w9, #111
	strb	w9, [x20, x8]
	cmp	x8, #1023
	add	x9, x8, #1
	str	x9, [x19, #1032]
	b.lo	.LBB35_864
	mov	x0, x19
	bl	"std_io::io::buffer::Buffer::flush"
	cbz	w0, .LBB35_1807
	ldr	x9, [x19, #1032]
	cmp	x9, #1023
	b.ls	.LBB35_864
	mov	w0, #1
	ldp	x20, x19, [sp, #32]
	ldp	x22, x21, [sp, #16]
	ldp	x29, x30, [sp], #48
	ret
.LBB35_408:
	mov	w9, #116
	strb	w9, [x20, x8]
	cmp	x8, #1023
	add	x9, x8, #1
	str	x9, [x19, #1032]
	b.lo	.LBB35_901
	mov	x0, x19
	bl	"std_io::io::buffer::Buffer::flush"
	cbz	w0, .LBB35_1807
	ldr	x9, [x19, #1032]
	cmp	x9, #1023
	b.ls	.LBB35_901
	mov	w0, #1
	ldp	x20, x19, [sp, #32]
	ldp	x22, x21, [sp, #16]
	ldp	x29, x30, [sp], #48
	ret
.LBB35_412:
	mov	w9, #110
	strb	w9, [x20, x8]
	cmp	x8, #1023
	add	x9, x8, #1
	str	x9, [x19, #1032]
	b.lo	.LBB35_926
	mov	x0, x19
	bl	"std_io::io::buffer::Buffer::flush"
	cbz	w0, .LBB35_1807
	ldr	x9, [x19, #1032]
	cmp	x9, #1023
	b.ls	.LBB35_926
	mov	w0, #1
	ldp	x20, x19, [sp, #32]
	ldp	x22, x21, [sp, #16]
	ldp	x29, x30, [sp], #48
	ret
.LBB35_416:
	mov	w21, #100
	add	x9, x8, #1
	cmp	x8, #1023
	strb	w21, [x20, x8]
	str	x9, [x19, #1032]
	b.lo	.LBB35_981
	mov	x0, x19
	bl	"std_io::io::buffer::Buffer::flush"
	cbz	w0, .LBB35_1807
	ldr	x9, [x19, #1032]
	cmp	x9, #1023
	b.ls	.LBB35_981
	mov	w0, #1
	ldp	x20, x19, [sp, #32]
	ldp	x22, x21, [sp, #16]
	ldp	x29, x30, [sp], #48
	ret
.LBB35_420:
	mov	w9, #111
	strb	w9, [x20, x8]
	cmp	x8, #1023
	add	x9, x8, #1
	str	x9, [x19, #1032]
	b.lo	.LBB35_1029
	mov	x0, x19
	bl	"std_io::io::buffer::Buffer::flush"
	cbz	w0, .LBB35_1807
	ldr	x9, [x19, #1032]
	cmp	x9, #1023
	b.ls	.LBB35_1029
	mov	w0, #1
	ldp	x20, x19, [sp, #32]
	ldp	x22, x21, [sp, #16]
	ldp	x29, x30, [sp], #48
	ret
.LBB35_424:
	mov	w9, #111
	strb	w9, [x20, x8]
	cmp	x8, #1023
	add	x9, x8, #1
	str	x9, [x19, #1032]
	b.lo	.LBB35_1068
	mov	x0, x19
	bl	"std_io::io::buffer::Buffer::flush"
	cbz	w0, .LBB35_1807
	ldr	x9, [x19, #1032]
	cmp	x9, #1023
	b.ls	.LBB35_1068
	mov	w0, #1
	ldp	x20, x19, [sp, #32]
	ldp	x22, x21, [sp, #16]
	ldp	x29, x30, [sp], #48
	ret
.LBB35_428:
	mov	w9, #115
	strb	w9, [x20, x8]
	cmp	x8, #1023
	add	x9, x8, #1
	str	x9, [x19, #1032]
	b.lo	.LBB35_1108
	mov	x0, x19
	bl	"std_io::io::buffer::Buffer::flush"
	cbz	w0, .LBB35_1807
	ldr	x9, [x19, #1032]
	cmp	x9, #1023
	b.ls	.LBB35_1108
	mov	w0, #1
	ldp	x20, x19, [sp, #32]
	ldp	x22, x21, [sp, #16]
	ldp	x29, x30, [sp], #48
	ret
.LBB35_432:
	mov	w9, #111
	strb	w9, [x20, x8]
	cmp	x8, #1023
	add	x9, x8, #1
	str	x9, [x19, #1032]
	b.lo	.LBB35_1142
	mov	x0, x19
	bl	"std_io::io::buffer::Buffer::flush"
	cbz	w0, .LBB35_1807
	ldr	x9, [x19, #1032]
	cmp	x9, #1023
	b.ls	.LBB35_1142
	mov	w0, #1
	ldp	x20, x19, [sp, #32]
	ldp	x22, x21, [sp, #16]
	ldp	x29, x30, [sp], #48
	ret
.LBB35_436:
	mov	w9, #111
	strb	w9, [x20, x8]
	cmp	x8, #1023
	add	x9, x8, #1
	str	x9, [x19, #1032]
	b.lo	.LBB35_1181
	mov	x0, x19
	bl	"std_io::io::buffer::Buffer::flush"
	cbz	w0, .LBB35_1807
	ldr	x9, [x19, #1032]
	cmp	x9, #1023
	b.ls	.LBB35_1181
	mov	w0, #1
	ldp	x20, x19, [sp, #32]
	ldp	x22, x21, [sp, #16]
	ldp	x29, x30, [sp], #48
	ret
.LBB35_440:
	mov	w9, #110
	strb	w9, [x20, x8]
	cmp	x8, #1023
	add	x9, x8, #1
	str	x9, [x19, #1032]
	b.lo	.LBB35_1206
	mov	x0, x19
	bl	"std_io::io::buffer::Buffer::flush"
	cbz	w0, .LBB35_1807
	ldr	x9, [x19, #1032]
	cmp	x9, #1023
	b.ls	.LBB35_1206
	mov	w0, #1
	ldp	x20, x19, [sp, #32]
	ldp	x22, x21, [sp, #16]
	ldp	x29, x30, [sp], #48
	ret
.LBB35_444:
	mov	w9, #101
	strb	w9, [x20, x8]
	cmp	x8, #1023
	add	x9, x8, #1
	str	x9, [x19, #1032]
	b.lo	.LBB35_1245
	mov	x0, x19
	bl	"std_io::io::buffer::Buffer::flush"
	cbz	w0, .LBB35_1807
	ldr	x9, [x19, #1032]
	cmp	x9, #1023
	b.ls	.LBB35_1245
	mov	w0, #1
	ldp	x20, x19, [sp, #32]
	ldp	x22, x21, [sp, #16]
	ldp	x29, x30, [sp], #48
	ret
.LBB35_448:
	mov	w9, #110
	strb	w9, [x20, x8]
	cmp	x8, #1023
	add	x9, x8, #1
	str	x9, [x19, #1032]
	b.lo	.LBB35_1287
	mov	x0, x19
	bl	"std_io::io::buffer::Buffer::flush"
	cbz	w0, .LBB35_1807
	ldr	x9, [x19, #1032]
	cmp	x9, #1023
	b.ls	.LBB35_1287
.LBB35_451:
	mov	w0, #1
	ldp	x20, x19, [sp, #32]
	ldp	x22, x21, [sp, #16]
	ldp	x29, x30, [sp], #48
	ret
.LBB35_452:
	mov	w9, #101
	strb	w9, [x20, x8]
	cmp	x8, #1023
	add	x9, x8, #1
	str	x9, [x19, #1032]
	b.lo	.LBB35_1335
	mov	x0, x19
	bl	"std_io::io::buffer::Buffer::flush"
	cbz	w0, .LBB35_1807
	ldr	x9, [x19, #1032]
	cmp	x9, #1023
	b.ls	.LBB35_1335
	mov	w0, #1
	ldp	x20, x19, [sp, #32]
	ldp	x22, x21, [sp, #16]
	ldp	x29, x30, [sp], #48
	ret
.LBB35_456:
	mov	w9, #110
	strb	w9, [x20, x8]
	cmp	x8, #1023
	add	x9, x8, #1
	str	x9, [x19, #1032]
	b.lo	.LBB35_1383
	mov	x0, x19
	bl	"std_io::io::buffer::Buffer::flush"
	cbz	w0, .LBB35_1807
	ldr	x9, [x19, #1032]
	cmp	x9, #1023
	b.ls	.LBB35_1383
	mov	w0, #1
	ldp	x20, x19, [sp, #32]
	ldp	x22, x21, [sp, #16]
	ldp	x29, x30, [sp], #48
	ret
.LBB35_460:
	mov	w9, #112
	strb	w9, [x20, x8]
	cmp	x8, #1023
	add	x9, x8, #1
	str	x9, [x19, #1032]
	b.lo	.LBB35_1411
	mov	x0, x19
	bl	"std_io::io::buffer::Buffer::flush"
	cbz	w0, .LBB35_1807
	ldr	x9, [x19, #1032]
	cmp	x9, #1023
	b.ls	.LBB35_1411
	mov	w0, #1
	ldp	x20, x19, [sp, #32]
	ldp	x22, x21, [sp, #16]
	ldp	x29, x30, [sp], #48
	ret
.LBB35_464:
	mov	w9, #111
	strb	w9, [x20, x8]
	cmp	x8, #1023
	add	x9, x8, #1
	str	x9, [x19, #1032]
	b.lo	.LBB35_1466
	mov	x0, x19
	bl	"std_io::io::buffer::Buffer::flush"
	cbz	w0, .LBB35_1807
	ldr	x9, [x19, #1032]
	cmp	x9, #1023
	b.ls	.LBB35_1466
	mov	w0, #1
	ldp	x20, x19, [sp, #32]
	ldp	x22, x21, [sp, #16]
	ldp	x29, x30, [sp], #48
	ret
.LBB35_468:
	mov	w9, #101
	strb	w9, [x20, x8]
	cmp	x8, #1023
	add	x9, x8, #1
	str	x9, [x19, #1032]
	b.lo	.LBB35_1512
	mov	x0, x19
	bl	"std_io::io::buffer::Buffer::flush"
	cbz	w0, .LBB35_1807
	ldr	x9, [x19, #1032]
	cmp	x9, #1023
	b.ls	.LBB35_1512
	mov	w0, #1
	ldp	x20, x19, [sp, #32]
	ldp	x22, x21, [sp, #16]
	ldp	x29, x30, [sp], #48
	ret
.LBB35_472:
	mov	w21, #100
	add	x9, x8, #1
	cmp	x8, #1023
	strb	w21, [x20, x8]
	str	x9, [x19, #1032]
	b.lo	.LBB35_1540
	mov	x0, x19
	bl	"std_io::io::buffer::Buffer::flush"
	cbz	w0, .LBB35_1807
	ldr	x9, [x19, #1032]
	cmp	x9, #1023
	b.ls	.LBB35_1540
	mov	w0, #1
	ldp	x20, x19, [sp, #32]
	ldp	x22, x21, [sp, #16]
	ldp	x29, x30, [sp], #48
	ret
.LBB35_476:
	mov	w9, #101
	strb	w9, [x20, x8]
	cmp	x8, #1023
	add	x9, x8, #1
	str	x9, [x19, #1032]
	b.lo	.LBB35_1574
	mov	x0, x19
	bl	"std_io::io::buffer::Buffer::flush"
	cbz	w0, .LBB35_1807
	ldr	x9, [x19, #1032]
	cmp	x9, #1023
	b.ls	.LBB35_1574
	mov	w0, #1
	ldp	x20, x19, [sp, #32]
	ldp	x22, x21, [sp, #16]
	ldp	x29, x30, [sp], #48
	ret
.LBB35_480:
	mov	w21, #111
	add	x9, x8, #1
	cmp	x8, #1023
	strb	w21, [x20, x8]
	str	x9, [x19, #1032]
	b.lo	.LBB35_1590
	mov	x0, x19
	bl	"std_io::io::buffer::Buffer::flush"
	cbz	w0, .LBB35_1807
	ldr	x9, [x19, #1032]
	cmp	x9, #1023
	b.ls	.LBB35_1590
	mov	w0, #1
	ldp	x20, x19, [sp, #32]
	ldp	x22, x21, [sp, #16]
	ldp	x29, x30, [sp], #48
	ret
.LBB35_484:
	mov	w9, #105
	strb	w9, [x20, x8]
	cmp	x8, #1023
	add	x9, x8, #1
	str	x9, [x19, #1032]
	b.lo	.LBB35_1624
	mov	x0, x19
	bl	"std_io::io::buffer::Buffer::flush"
	cbz	w0, .LBB35_1807
	ldr	x9, [x19, #1032]
	cmp	x9, #1023
	b.ls	.LBB35_1624
	mov	w0, #1
	ldp	x20, x19, [sp, #32]
	ldp	x22, x21, [sp, #16]
	ldp	x29, x30, [sp], #48
	ret
.LBB35_488:
	mov	w9, #110
	strb	w9, [x20, x8]
	cmp	x8, #1023
	add	x9, x8, #1
	str	x9, [x19, #1032]
	b.lo	.LBB35_1643
	mov	x0, x19
	bl	"std_io::io::buffer::Buffer::flush"
	cbz	w0, .LBB35_1807
	ldr	x9, [x19, #1032]
	cmp	x9, #1023
	b.ls	.LBB35_1643
	mov	w0, #1
	ldp	x20, x19, [sp, #32]
	ldp	x22, x21, [sp, #16]
	ldp	x29, x30, [sp], #48
	ret
.LBB35_492:
	mov	w9, #114
	strb	w9, [x20, x8]
	cmp	x8, #1023
	add	x9, x8, #1
	str	x9, [x19, #1032]
	b.lo	.LBB35_1668
	mov	x0, x19
	bl	"std_io::io::buffer::Buffer::flush"
	cbz	w0, .LBB35_1807
	ldr	x9, [x19, #1032]
	cmp	x9, #1023
	b.ls	.LBB35_1668
	mov	w0, #1
	ldp	x20, x19, [sp, #32]
	ldp	x22, x21, [sp, #16]
	ldp	x29, x30, [sp], #48
	ret
.LBB35_496:
	mov	w9, #101
	strb	w9, [x20, x8]
	cmp	x8, #1023
	add	x9, x8, #1
	str	x9, [x19, #1032]
	b.lo	.LBB35_1690
	mov	x0, x19
	bl	"std_io::io::buffer::Buffer::flush"
	cbz	w0, .LBB35_1807
	ldr	x9, [x19, #1032]
	cmp	x9, #1023
	b.ls	.LBB35_1690
	mov	w0, #1
	ldp	x20, x19, [sp, #32]
	ldp	x22, x21, [sp, #16]
	ldp	x29, x30, [sp], #48
	ret
.LBB35_500:
	mov	w9, #120
	strb	w9, [x20, x8]
	cmp	x8, #1023
	add	x9, x8, #1
	str	x9, [x19, #1032]
	b.lo	.LBB35_1718
	mov	x0, x19
	bl	"std_io::io::buffer::Buffer::flush"
	cbz	w0, .LBB35_1807
	ldr	x9, [x19, #1032]
	cmp	x9, #1023
	b.ls	.LBB35_1718
	mov	w0, #1
	ldp	x20, x19, [sp, #32]
	ldp	x22, x21, [sp, #16]
	ldp	x29, x30, [sp], #48
	ret
.LBB35_504:
	mov	w9, #117
	strb	w9, [x20, x8]
	cmp	x8, #1023
	add	x9, x8, #1
	str	x9, [x19, #1032]
	b.lo	.LBB35_1769
	mov	x0, x19
	bl	"std_io::io::buffer::Buffer::flush"
	cbz	w0, .LBB35_1807
	ldr	x9, [x19, #1032]
	cmp	x9, #1023
	b.ls	.LBB35_1769
	mov	w0, #1
	ldp	x20, x19, [sp, #32]
	ldp	x22, x21, [sp, #16]
	ldp	x29, x30, [sp], #48
	ret
.LBB35_508:
	mov	w9, #117
	strb	w9, [x20, x8]
	cmp	x8, #1023
	add	x9, x8, #1
	str	x9, [x19, #1032]
	b.lo	.LBB35_1801
	mov	x0, x19
	bl	"std_io::io::buffer::Buffer::flush"
	cbz	w0, .LBB35_1807
	ldr	x9, [x19, #1032]
	cmp	x9, #1023
	b.ls	.LBB35_1801
	mov	w0, #1
	ldp	x20, x19, [sp, #32]
	ldp	x22, x21, [sp, #16]
	ldp	x29, x30, [sp], #48
	ret
.LBB35_512:
	mov	w8, #101
	strb	w8, [x20, x9]
	cmp	x9, #1023
	add	x8, x9, #1
	str	x8, [x19, #1032]
	b.lo	.LBB35_515
	mov	x0, x19
	bl	"std_io::io::buffer::Buffer::flush"
	cbz	w0, .LBB35_1814
	ldr	x8, [x19, #1032]
	cmp	x8, #1023
	b.hi	.LBB35_1807
.LBB35_515:
	mov	w9, #120
	strb	w9, [x20, x8]
	cmp	x8, #1023
	add	x9, x8, #1
	str	x9, [x19, #1032]
	b.lo	.LBB35_518
	mov	x0, x19
	bl	"std_io::io::buffer::Buffer::flush"
	cbz	w0, .LBB35_1814
	ldr	x9, [x19, #1032]
	cmp	x9, #1023
	b.hi	.LBB35_1807
.LBB35_518:
	mov	w8, #112
	strb	w8, [x20, x9]
	cmp	x9, #1023
	add	x8, x9, #1
	str	x8, [x19, #1032]
	b.lo	.LBB35_521
	mov	x0, x19
	bl	"std_io::io::buffer::Buffer::flush"
	cbz	w0, .LBB35_1863
	ldr	x8, [x19, #1032]
	cmp	x8, #1023
	b.hi	.LBB35_1814
.LBB35_521:
	mov	w9, #101
	strb	w9, [x20, x8]
	cmp	x8, #1023
	add	x9, x8, #1
	str	x9, [x19, #1032]
	b.lo	.LBB35_524
	mov	x0, x19
	bl	"std_io::io::buffer::Buffer::flush"
	cbz	w0, .LBB35_1863
	ldr	x9, [x19, #1032]
	cmp	x9, #1023
	b.hi	.LBB35_1814
.LBB35_524:
	mov	w8, #99
	strb	w8, [x20, x9]
	cmp	x9, #1023
	add	x8, x9, #1
	str	x8, [x19, #1032]
	b.lo	.LBB35_527
	mov	x0, x19
	bl	"std_io::io::buffer::Buffer::flush"
	cbz	w0, .LBB35_1870
	ldr	x8, [x19, #1032]
	cmp	x8, #1023
	b.hi	.LBB35_1863
.LBB35_527:
	mov	w9, #116
	strb	w9, [x20, x8]
	cmp	x8, #1023
	add	x9, x8, #1
	str	x9, [x19, #1032]
	b.lo	.LBB35_530
	mov	x0, x19
	bl	"std_io::io::buffer::Buffer::flush"
	cbz	w0, .LBB35_1870
	ldr	x9, [x19, #1032]
	cmp	x9, #1023
	b.hi	.LBB35_1863
.LBB35_530:
	mov	w8, #101
	strb	w8, [x20, x9]
	cmp	x9, #1023
	add	x8, x9, #1
	str	x8, [x19, #1032]
	b.lo	.LBB35_533
	mov	x0, x19
	bl	"std_io::io::buffer::Buffer::flush"
	cbz	w0, .LBB35_1880
	ldr	x8, [x19, #1032]
	cmp	x8, #1023
	b.hi	.LBB35_1870
.LBB35_533:
	mov	w9, #100
	strb	w9, [x20, x8]
	cmp	x8, #1023
	add	x9, x8, #1
	str	x9, [x19, #1032]
	b.lo	.LBB35_536
	mov	x0, x19
	bl	"std_io::io::buffer::Buffer::flush"
	cbz	w0, .LBB35_1880
	ldr	x9, [x19, #1032]
	cmp	x9, #1023
	b.hi	.LBB35_1870
.LBB35_536:
	mov	w8, #32
	strb	w8, [x20, x9]
	cmp	x9, #1023
	add	x8, x9, #1
	str	x8, [x19, #1032]
	b.lo	.LBB35_539
	mov	x0, x19
	bl	"std_io::io::buffer::Buffer::flush"
	cbz	w0, .LBB35_1880
	ldr	x8, [x19, #1032]
	cmp	x8, #1023
	b.hi	.LBB35_1870
.LBB35_539:
	mov	w9, #101
	strb	w9, [x20, x8]
	cmp	x8, #1023
	add	x9, x8, #1
	str	x9, [x19, #1032]
	b.lo	.LBB35_542
	mov	x0, x19
	bl	"std_io::io::buffer::Buffer::flush"
	cbz	w0, .LBB35_1892
	ldr	x9, [x19, #1032]
	cmp	x9, #1023
	b.hi	.LBB35_1880
.LBB35_542:
	mov	w8, #110
	strb	w8, [x20, x9]
	cmp	x9, #1023
	add	x8, x9, #1
	str	x8, [x19, #1032]
	b.lo	.LBB35_545
	mov	x0, x19
	bl	"std_io::io::buffer::Buffer::flush"
	cbz	w0, .LBB35_1892
	ldr	x8, [x19, #1032]
	cmp	x8, #1023
	b.hi	.LBB35_1880
.LBB35_545:
	mov	w9, #100
	strb	w9, [x20, x8]
	cmp	x8, #1023
	add	x9, x8, #1
	str	x9, [x19, #1032]
	b.lo	.LBB35_1883
	mov	x0, x19
	bl	"std_io::io::buffer::Buffer::flush"
	cbz	w0, .LBB35_1892
	ldr	x9, [x19, #1032]
	cmp	x9, #1023
	b.ls	.LBB35_1883
	mov	w0, #1
	ldp	x20, x19, [sp, #32]
	ldp	x22, x21, [sp, #16]
	ldp	x29, x30, [sp], #48
	ret
.LBB35_549:
	mov	w8, #101
	strb	w8, [x20, x9]
	cmp	x9, #1023
	add	x8, x9, #1
	str	x8, [x19, #1032]
	b.lo	.LBB35_552
	mov	x0, x19
	bl	"std_io::io::buffer::Buffer::flush"
	cbz	w0, .LBB35_1814
	ldr	x8, [x19, #1032]
	cmp	x8, #1023
	b.hi	.LBB35_1807
.LBB35_552:
	mov	w9, #114
	strb	w9, [x20, x8]
	cmp	x8, #1023
	add	x9, x8, #1
	str	x9, [x19, #1032]
	b.lo	.LBB35_555
	mov	x0, x19
	bl	"std_io::io::buffer::Buffer::flush"
	cbz	w0, .LBB35_1814
	ldr	x9, [x19, #1032]
	cmp	x9, #1023
	b.hi	.LBB35_1807
.LBB35_555:
	mov	w8, #97
	strb	w8, [x20, x9]
	cmp	x9, #1023
	add	x8, x9, #1
	str	x8, [x19, #1032]
	b.lo	.LBB35_558
	mov	x0, x19
	bl	"std_io::io::buffer::Buffer::flush"
	cbz	w0, .LBB35_1863
	ldr	x8, [x19, #1032]
	cmp	x8, #1023
	b.hi	.LBB35_1814
.LBB35_558:
	mov	w9, #116
	strb	w9, [x20, x8]
	cmp	x8, #1023
	add	x9, x8, #1
	str	x9, [x19, #1032]
	b.lo	.LBB35_561
	mov	x0, x19
	bl	"std_io::io::buffer::Buffer::flush"
	cbz	w0, .LBB35_1863
	ldr	x9, [x19, #1032]
	cmp	x9, #1023
	b.hi	.LBB35_1814
.LBB35_561:
	mov	w8, #105
	strb	w8, [x20, x9]
	cmp	x9, #1023
	add	x8, x9, #1
	str	x8, [x19, #1032]
	b.lo	.LBB35_564
	mov	x0, x19
	bl	"std_io::io::buffer::Buffer::flush"
	cbz	w0, .LBB35_1870
	ldr	x8, [x19, #1032]
	cmp	x8, #1023
	b.hi	.LBB35_1863
.LBB35_564:
	mov	w9, #111
	strb	w9, [x20, x8]
	cmp	x8, #1023
	add	x9, x8, #1
	str	x9, [x19, #1032]
	b.lo	.LBB35_567
	mov	x0, x19
	bl	"std_io::io::buffer::Buffer::flush"
	cbz	w0, .LBB35_1870
	ldr	x9, [x19, #1032]
	cmp	x9, #1023
	b.hi	.LBB35_1863
.LBB35_567:
	mov	w8, #110
	strb	w8, [x20, x9]
	cmp	x9, #1023
	add	x8, x9, #1
	str	x8, [x19, #1032]
	b.lo	.LBB35_570
	mov	x0, x19
	bl	"std_io::io::buffer::Buffer::flush"
	cbz	w0, .LBB35_1880
	ldr	x8, [x19, #1032]
	cmp	x8, #1023
	b.hi	.LBB35_1870
.LBB35_570:
	mov	w9, #32
	strb	w9, [x20, x8]
	cmp	x8, #1023
	add	x9, x8, #1
	str	x9, [x19, #1032]
	b.lo	.LBB35_573
	mov	x0, x19
	bl	"std_io::io::buffer::Buffer::flush"
	cbz	w0, .LBB35_1880
	ldr	x9, [x19, #1032]
	cmp	x9, #1023
	b.hi	.LBB35_1870
.LBB35_573:
	mov	w8, #105
	strb	w8, [x20, x9]
	cmp	x9, #1023
	add	x8, x9, #1
	str	x8, [x19, #1032]
	b.lo	.LBB35_576
	mov	x0, x19
	bl	"std_io::io::buffer::Buffer::flush"
	cbz	w0, .LBB35_1880
	ldr	x8, [x19, #1032]
	cmp	x8, #1023
	b.hi	.LBB35_1880
.LBB35_576:
	mov	w9, #110
	strb	w9, [x20, x8]
	cmp	x8, #1023
	add	x9, x8, #1
	str	x9, [x19, #1032]
	b.lo	.LBB35_579
	mov	x0, x19
	bl	"std_io::io::buffer::Buffer::flush"
	cbz	w0, .LBB35_1892
	ldr	x9, [x19, #1032]
	cmp	x9, #1023
	b.hi	.LBB35_1880
.LBB35_579:
	mov	w8, #116
	strb	w8, [x20, x9]
	cmp	x9, #1023
	add	x8, x9, #1
	str	x8, [x19, #1032]
	b.lo	.LBB35_582
	mov	x0, x19
	bl	"std_io::io::buffer::Buffer::flush"
	cbz	w0, .LBB35_1892
	ldr	x8, [x19, #1032]
	cmp	x8, #1023
	b.hi	.LBB35_1880
.LBB35_582:
	mov	w9, #101
	strb	w9, [x20, x8]
	cmp	x8, #1023
	add	x9, x8, #1
	str	x9, [x19, #1032]
	b.lo	.LBB35_585
	mov	x0, x19
	bl	"std_io::io::buffer::Buffer::flush"
	cbz	w0, .LBB35_1892
	ldr	x9, [x19, #1032]
	cmp	x9, #1023
	b.hi	.LBB35_1892
.LBB35_585:
	mov	w21, #114
	add	x10, x9, #1
	cmp	x9, #1023
	strb	w21, [x20, x9]
	str	x10, [x19, #1032]
	b.lo	.LBB35_588
	mov	x0, x19
	bl	"std_io::io::buffer::Buffer::flush"
	cbz	w0, .LBB35_1905
	ldr	x10, [x19, #1032]
	cmp	x10, #1023
	b.hi	.LBB35_1892
.LBB35_588:
	add	x8, x10, #1
	cmp	x10, #1023
	strb	w21, [x20, x10]
	str	x8, [x19, #1032]
	b.lo	.LBB35_591
	mov	x0, x19
	bl	"std_io::io::buffer::Buffer::flush"
	cbz	w0, .LBB35_1905
	ldr	x8, [x19, #1032]
	cmp	x8, #1023
	b.hi	.LBB35_1892
.LBB35_591:
	mov	w9, #117
	strb	w9, [x20, x8]
	cmp	x8, #1023
	add	x9, x8, #1
	str	x9, [x19, #1032]
	b.lo	.LBB35_594
	mov	x0, x19
	bl	"std_io::io::buffer::Buffer::flush"
	cbz	w0, .LBB35_1905
	ldr	x9, [x19, #1032]
	cmp	x9, #1023
	b.hi	.LBB35_1892
.LBB35_594:
	mov	w8, #112
	strb	w8, [x20, x9]
	cmp	x9, #1023
	add	x8, x9, #1
	str	x8, [x19, #1032]
	b.lo	.LBB35_597
	mov	x0, x19
	bl	"std_io::io::buffer::Buffer::flush"
	cbz	w0, .LBB35_1905
	ldr	x8, [x19, #1032]
	cmp	x8, #1023
	b.hi	.LBB35_1905
.LBB35_597:
	mov	w9, #116
	strb	w9, [x20, x8]
	cmp	x8, #1023
	add	x9, x8, #1
	str	x9, [x19, #1032]
	b.lo	.LBB35_600
	mov	x0, x19
	bl	"std_io::io::buffer::Buffer::flush"
	cbz	w0, .LBB35_1905
	ldr	x9, [x19, #1032]
	cmp	x9, #1023
	b.hi	.LBB35_1905
.LBB35_600:
	mov	w8, #101
	strb	w8, [x20, x9]
	cmp	x9, #1023
	add	x8, x9, #1
	str	x8, [x19, #1032]
	b.lo	.LBB35_1881
	mov	x0, x19
	bl	"std_io::io::buffer::Buffer::flush"
	cbz	w0, .LBB35_1905
	ldr	x8, [x19, #1032]
	cmp	x8, #1023
	b.hi	.LBB35_1905
	b	.LBB35_1881
.LBB35_603:
	mov	w8, #115
	strb	w8, [x20, x9]
	cmp	x9, #1023
	add	x8, x9, #1
	str	x8, [x19, #1032]
	b.lo	.LBB35_606
	mov	x0, x19
	bl	"std_io::io::buffer::Buffer::flush"
	cbz	w0, .LBB35_1814
	ldr	x8, [x19, #1032]
	cmp	x8, #1023
	b.hi	.LBB35_1807
.LBB35_606:
	mov	w9, #117
	strb	w9, [x20, x8]
	cmp	x8, #1023
	add	x9, x8, #1
	str	x9, [x19, #1032]
	b.lo	.LBB35_609
	mov	x0, x19
	bl	"std_io::io::buffer::Buffer::flush"
	cbz	w0, .LBB35_1814
	ldr	x9, [x19, #1032]
	cmp	x9, #1023
	b.hi	.LBB35_1807
.LBB35_609:
	mov	w21, #112
	add	x10, x9, #1
	cmp	x9, #1023
	strb	w21, [x20, x9]
	str	x10, [x19, #1032]
	b.lo	.LBB35_612
	mov	x0, x19
	bl	"std_io::io::buffer::Buffer::flush"
	cbz	w0, .LBB35_1863
	ldr	x10, [x19, #1032]
	cmp	x10, #1023
	b.hi	.LBB35_1814
.LBB35_612:
	add	x8, x10, #1
	cmp	x10, #1023
	strb	w21, [x20, x10]
	str	x8, [x19, #1032]
	b.lo	.LBB35_615
	mov	x0, x19
	bl	"std_io::io::buffer::Buffer::flush"
	cbz	w0, .LBB35_1863
	ldr	x8, [x19, #1032]
	cmp	x8, #1023
	b.hi	.LBB35_1814
.LBB35_615:
	mov	w9, #111
	strb	w9, [x20, x8]
	cmp	x8, #1023
	add	x9, x8, #1
	str	x9, [x19, #1032]
	b.lo	.LBB35_618
	mov	x0, x19
	bl	"std_io::io::buffer::Buffer::flush"
	cbz	w0, .LBB35_1870
	ldr	x9, [x19, #1032]
	cmp	x9, #1023
	b.hi	.LBB35_1863
.LBB35_618:
	mov	w8, #114
	strb	w8, [x20, x9]
	cmp	x9, #1023
	add	x8, x9, #1
	str	x8, [x19, #1032]
	b.lo	.LBB35_621
	mov	x0, x19
	bl	"std_io::io::buffer::Buffer::flush"
	cbz	w0, .LBB35_1870
	ldr	x8, [x19, #1032]
	cmp	x8, #1023
	b.hi	.LBB35_1863
.LBB35_621:
	mov	w9, #116
	strb	w9, [x20, x8]
	cmp	x8, #1023
	add	x9, x8, #1
	str	x9, [x19, #1032]
	b.lo	.LBB35_624
	mov	x0, x19
	bl	"std_io::io::buffer::Buffer::flush"
	cbz	w0, .LBB35_1880
	ldr	x9, [x19, #1032]
	cmp	x9, #1023
	b.hi	.LBB35_1870
.LBB35_624:
	mov	w8, #101
	strb	w8, [x20, x9]
	cmp	x9, #1023
	add	x8, x9, #1
	str	x8, [x19, #1032]
	b.lo	.LBB35_1881
	mov	x0, x19
	bl	"std_io::io::buffer::Buffer::flush"
	cbz	w0, .LBB35_1880
	ldr	x8, [x19, #1032]
	cmp	x8, #1023
	b.ls	.LBB35_1881
	b	.LBB35_1870
.LBB35_627:
	mov	w8, #108
	strb	w8, [x20, x9]
	cmp	x9, #1023
	add	x8, x9, #1
	str	x8, [x19, #1032]
	b.lo	.LBB35_630
	mov	x0, x19
	bl	"std_io::io::buffer::Buffer::flush"
	cbz	w0, .LBB35_1814
	ldr	x8, [x19, #1032]
	cmp	x8, #1023
	b.hi	.LBB35_1807
.LBB35_630:
	mov	w9, #101
	strb	w9, [x20, x8]
	cmp	x8, #1023
	add	x9, x8, #1
	str	x9, [x19, #1032]
	b.lo	.LBB35_633
	mov	x0, x19
	bl	"std_io::io::buffer::Buffer::flush"
	cbz	w0, .LBB35_1814
	ldr	x9, [x19, #1032]
	cmp	x9, #1023
	b.hi	.LBB35_1807
.LBB35_633:
	mov	w8, #32
	strb	w8, [x20, x9]
	cmp	x9, #1023
	add	x8, x9, #1
	str	x8, [x19, #1032]
	b.lo	.LBB35_636
	mov	x0, x19
	bl	"std_io::io::buffer::Buffer::flush"
	cbz	w0, .LBB35_1863
	ldr	x8, [x19, #1032]
	cmp	x8, #1023
	b.hi	.LBB35_1814
.LBB35_636:
	mov	w9, #116
	strb	w9, [x20, x8]
	cmp	x8, #1023
	add	x9, x8, #1
	str	x9, [x19, #1032]
	b.lo	.LBB35_639
	mov	x0, x19
	bl	"std_io::io::buffer::Buffer::flush"
	cbz	w0, .LBB35_1863
	ldr	x9, [x19, #1032]
	cmp	x9, #1023
	b.hi	.LBB35_1814
.LBB35_639:
	mov	w21, #111
	add	x10, x9, #1
	cmp	x9, #1023
	strb	w21, [x20, x9]
	str	x10, [x19, #1032]
	b.lo	.LBB35_642
	mov	x0, x19
	bl	"std_io::io::buffer::Buffer::flush"
	cbz	w0, .LBB35_1870
	ldr	x10, [x19, #1032]
	cmp	x10, #1023
	b.hi	.LBB35_1863
.LBB35_642:
	add	x8, x10, #1
	cmp	x10, #1023
	strb	w21, [x20, x10]
	str	x8, [x19, #1032]
	b.lo	.LBB35_645
	mov	x0, x19
	bl	"std_io::io::buffer::Buffer::flush"
	cbz	w0, .LBB35_1870
	ldr	x8, [x19, #1032]
	cmp	x8, #1023
	b.hi	.LBB35_1863
.LBB35_645:
	mov	w9, #32
	strb	w9, [x20, x8]
	cmp	x8, #1023
	add	x9, x8, #1
	str	x9, [x19, #1032]
	b.lo	.LBB35_648
	mov	x0, x19
	bl	"std_io::io::buffer::Buffer::flush"
	cbz	w0, .LBB35_1880
	ldr	x9, [x19, #1032]
	cmp	x9, #1023
	b.hi	.LBB35_1870
.LBB35_648:
	mov	w8, #108
	strb	w8, [x20, x9]
	cmp	x9, #1023
	add	x8, x9, #1
	str	x8, [x19, #1032]
	b.lo	.LBB35_651
	mov	x0, x19
	bl	"std_io::io::buffer::Buffer::flush"
	cbz	w0, .LBB35_1880
	ldr	x8, [x19, #1032]
	cmp	x8, #1023
	b.hi	.LBB35_1870
.LBB35_651:
	mov	w9, #97
	strb	w9, [x20, x8]
	cmp	x8, #1023
	add	x9, x8, #1
	str	x9, [x19, #1032]
	b.lo	.LBB35_654
	mov	x0, x19
	bl	"std_io::io::buffer::Buffer::flush"
	cbz	w0, .LBB35_1880
	ldr	x9, [x19, #1032]
	cmp	x9, #1023
	b.hi	.LBB35_1880
.LBB35_654:
	mov	w8, #114
	strb	w8, [x20, x9]
	cmp	x9, #1023
	add	x8, x9, #1
	str	x8, [x19, #1032]
	b.lo	.LBB35_657
	mov	x0, x19
	bl	"std_io::io::buffer::Buffer::flush"
	cbz	w0, .LBB35_1892
	ldr	x8, [x19, #1032]
	cmp	x8, #1023
	b.hi	.LBB35_1880
.LBB35_657:
	mov	w9, #103
	strb	w9, [x20, x8]
	cmp	x8, #1023
	add	x9, x8, #1
	str	x9, [x19, #1032]
	b.lo	.LBB35_863
	mov	x0, x19
	bl	"std_io::io::buffer::Buffer::flush"
	cbz	w0, .LBB35_1892
	ldr	x9, [x19, #1032]
	cmp	x9, #1023
	b.hi	.LBB35_1880
	b	.LBB35_863
.LBB35_660:
	mov	w8, #103
	strb	w8, [x20, x9]
	cmp	x9, #1023
	add	x8, x9, #1
	str	x8, [x19, #1032]
	b.lo	.LBB35_663
	mov	x0, x19
	bl	"std_io::io::buffer::Buffer::flush"
	cbz	w0, .LBB35_1814
	ldr	x8, [x19, #1032]
	cmp	x8, #1023
	b.hi	.LBB35_1807
.LBB35_663:
	mov	w9, #117
	strb	w9, [x20, x8]
	cmp	x8, #1023
	add	x9, x8, #1
	str	x9, [x19, #1032]
	b.lo	.LBB35_666
	mov	x0, x19
	bl	"std_io::io::buffer::Buffer::flush"
	cbz	w0, .LBB35_1814
	ldr	x9, [x19, #1032]
	cmp	x9, #1023
	b.hi	.LBB35_1807
.LBB35_666:
	mov	w8, #109
	strb	w8, [x20, x9]
	cmp	x9, #1023
	add	x8, x9, #1
	str	x8, [x19, #1032]
	b.lo	.LBB35_669
	mov	x0, x19
	bl	"std_io::io::buffer::Buffer::flush"
	cbz	w0, .LBB35_1863
	ldr	x8, [x19, #1032]
	cmp	x8, #1023
	b.hi	.LBB35_1814
.LBB35_669:
	mov	w9, #101
	strb	w9, [x20, x8]
	cmp	x8, #1023
	add	x9, x8, #1
	str	x9, [x19, #1032]
	b.lo	.LBB35_672
	mov	x0, x19
	bl	"std_io::io::buffer::Buffer::flush"
	cbz	w0, .LBB35_1863
	ldr	x9, [x19, #1032]
	cmp	x9, #1023
	b.hi	.LBB35_1814
.LBB35_672:
	mov	w8, #110
	strb	w8, [x20, x9]
	cmp	x9, #1023
	add	x8, x9, #1
	str	x8, [x19, #1032]
	b.lo	.LBB35_675
	mov	x0, x19
	bl	"std_io::io::buffer::Buffer::flush"
	cbz	w0, .LBB35_1870
	ldr	x8, [x19, #1032]
	cmp	x8, #1023
	b.hi	.LBB35_1863
.LBB35_675:
	mov	w9, #116
	strb	w9, [x20, x8]
	cmp	x8, #1023
	add	x9, x8, #1
	str	x9, [x19, #1032]
	b.lo	.LBB35_678
	mov	x0, x19
	bl	"std_io::io::buffer::Buffer::flush"
	cbz	w0, .LBB35_1870
	ldr	x9, [x19, #1032]
	cmp	x9, #1023
	b.hi	.LBB35_1863
.LBB35_678:
	mov	w8, #32
	strb	w8, [x20, x9]
	cmp	x9, #1023
	add	x8, x9, #1
	str	x8, [x19, #1032]
	b.lo	.LBB35_681
	mov	x0, x19
	bl	"std_io::io::buffer::Buffer::flush"
	cbz	w0, .LBB35_1880
	ldr	x8, [x19, #1032]
	cmp	x8, #1023
	b.hi	.LBB35_1870
.LBB35_681:
	mov	w9, #108
	strb	w9, [x20, x8]
	cmp	x8, #1023
	add	x9, x8, #1
	str	x9, [x19, #1032]
	b.lo	.LBB35_684
	mov	x0, x19
	bl	"std_io::io::buffer::Buffer::flush"
	cbz	w0, .LBB35_1880
	ldr	x9, [x19, #1032]
	cmp	x9, #1023
	b.hi	.LBB35_1870
.LBB35_684:
	mov	w8, #105
	strb	w8, [x20, x9]
	cmp	x9, #1023
	add	x8, x9, #1
	str	x8, [x19, #1032]
	b.lo	.LBB35_687
	mov	x0, x19
	bl	"std_io::io::buffer::Buffer::flush"
	cbz	w0, .LBB35_1892
	ldr	x8, [x19, #1032]
	cmp	x8, #1023
	b.hi	.LBB35_1880
.LBB35_687:
	mov	w9, #115
	strb	w9, [x20, x8]
	cmp	x8, #1023
	add	x9, x8, #1
	str	x9, [x19, #1032]
	b.lo	.LBB35_690
	mov	x0, x19
	bl	"std_io::io::buffer::Buffer::flush"
	cbz	w0, .LBB35_1892
	ldr	x9, [x19, #1032]
	cmp	x9, #1023
	b.hi	.LBB35_1880
.LBB35_690:
	mov	w8, #116
	strb	w8, [x20, x9]
	cmp	x9, #1023
	add	x8, x9, #1
	str	x8, [x19, #1032]
	b.lo	.LBB35_693
	mov	x0, x19
	bl	"std_io::io::buffer::Buffer::flush"
	cbz	w0, .LBB35_1892
	ldr	x8, [x19, #1032]
	cmp	x8, #1023
	b.hi	.LBB35_1880
.LBB35_693:
	mov	w9, #32
	strb	w9, [x20, x8]
	cmp	x8, #1023
	add	x9, x8, #1
	str	x9, [x19, #1032]
	b.lo	.LBB35_696
	mov	x0, x19
	bl	"std_io::io::buffer::Buffer::flush"
	cbz	w0, .LBB35_1892
	ldr	x9, [x19, #1032]
	cmp	x9, #1023
	b.hi	.LBB35_1892
.LBB35_696:
	mov	w8, #116
	strb	w8, [x20, x9]
	cmp	x9, #1023
	add	x8, x9, #1
	str	x8, [x19, #1032]
	b.lo	.LBB35_699
	mov	x0, x19
	bl	"std_io::io::buffer::Buffer::flush"
	cbz	w0, .LBB35_1905
	ldr	x8, [x19, #1032]
	cmp	x8, #1023
	b.hi	.LBB35_1892
.LBB35_699:
	mov	w21, #111
	add	x9, x8, #1
	cmp	x8, #1023
	strb	w21, [x20, x8]
	str	x9, [x19, #1032]
	b.lo	.LBB35_702
	mov	x0, x19
	bl	"std_io::io::buffer::Buffer::flush"
	cbz	w0, .LBB35_1905
	ldr	x9, [x19, #1032]
	cmp	x9, #1023
	b.hi	.LBB35_1892
.LBB35_702:
	add	x8, x9, #1
	cmp	x9, #1023
	strb	w21, [x20, x9]
	str	x8, [x19, #1032]
	b.lo	.LBB35_705
	mov	x0, x19
	bl	"std_io::io::buffer::Buffer::flush"
	cbz	w0, .LBB35_1905
	ldr	x8, [x19, #1032]
	cmp	x8, #1023
	b.hi	.LBB35_1892
.LBB35_705:
	mov	w9, #32
	strb	w9, [x20, x8]
	cmp	x8, #1023
	add	x9, x8, #1
	str	x9, [x19, #1032]
	b.lo	.LBB35_708
	mov	x0, x19
	bl	"std_io::io::buffer::Buffer::flush"
	cbz	w0, .LBB35_1905
	ldr	x9, [x19, #1032]
	cmp	x9, #1023
	b.hi	.LBB35_1905
.LBB35_708:
	mov	w8, #108
	strb	w8, [x20, x9]
	cmp	x9, #1023
	add	x8, x9, #1
	str	x8, [x19, #1032]
	b.lo	.LBB35_711
	mov	x0, x19
	bl	"std_io::io::buffer::Buffer::flush"
	cbz	w0, .LBB35_1905
	ldr	x8, [x19, #1032]
	cmp	x8, #1023
	b.hi	.LBB35_1905
.LBB35_711:
	mov	w9, #111
	strb	w9, [x20, x8]
	cmp	x8, #1023
	add	x9, x8, #1
	str	x9, [x19, #1032]
	b.lo	.LBB35_714
	mov	x0, x19
	bl	"std_io::io::buffer::Buffer::flush"
	cbz	w0, .LBB35_1905
	ldr	x9, [x19, #1032]
	cmp	x9, #1023
	b.hi	.LBB35_1905
.LBB35_714:
	mov	w8, #110
	strb	w8, [x20, x9]
	cmp	x9, #1023
	add	x8, x9, #1
	str	x8, [x19, #1032]
	b.lo	.LBB35_717
	mov	x0, x19
	bl	"std_io::io::buffer::Buffer::flush"
	cbz	w0, .LBB35_1905
	ldr	x8, [x19, #1032]
	cmp	x8, #1023
	b.hi	.LBB35_1905
.LBB35_717:
	mov	w0, wzr
	mov	w9, #103
	b	.LBB35_1882
.LBB35_718:
	mov	w8, #114
	strb	w8, [x20, x9]
	cmp	x9, #1023
	add	x8, x9, #1
	str	x8, [x19, #1032]
	b.lo	.LBB35_721
	mov	x0, x19
	bl	"std_io::io::buffer::Buffer::flush"
	cbz	w0, .LBB35_1814
	ldr	x8, [x19, #1032]
	cmp	x8, #1023
	b.hi	.LBB35_1807
.LBB35_721:
	mov	w9, #101
	strb	w9, [x20, x8]
	cmp	x8, #1023
	add	x9, x8, #1
	str	x9, [x19, #1032]
	b.lo	.LBB35_724
	mov	x0, x19
	bl	"std_io::io::buffer::Buffer::flush"
	cbz	w0, .LBB35_1814
	ldr	x9, [x19, #1032]
	cmp	x9, #1023
	b.hi	.LBB35_1807
.LBB35_724:
	mov	w8, #99
	strb	w8, [x20, x9]
	cmp	x9, #1023
	add	x8, x9, #1
	str	x8, [x19, #1032]
	b.lo	.LBB35_727
	mov	x0, x19
	bl	"std_io::io::buffer::Buffer::flush"
	cbz	w0, .LBB35_1863
	ldr	x8, [x19, #1032]
	cmp	x8, #1023
	b.hi	.LBB35_1814
.LBB35_727:
	mov	w9, #116
	strb	w9, [x20, x8]
	cmp	x8, #1023
	add	x9, x8, #1
	str	x9, [x19, #1032]
	b.lo	.LBB35_730
	mov	x0, x19
	bl	"std_io::io::buffer::Buffer::flush"
	cbz	w0, .LBB35_1863
	ldr	x9, [x19, #1032]
	cmp	x9, #1023
	b.hi	.LBB35_1814
.LBB35_730:
	mov	w8, #111
	strb	w8, [x20, x9]
	cmp	x9, #1023
	add	x8, x9, #1
	str	x8, [x19, #1032]
	b.lo	.LBB35_733
	mov	x0, x19
	bl	"std_io::io::buffer::Buffer::flush"
	cbz	w0, .LBB35_1870
	ldr	x8, [x19, #1032]
	cmp	x8, #1023
	b.hi	.LBB35_1863
.LBB35_733:
	mov	w9, #114
	strb	w9, [x20, x8]
	cmp	x8, #1023
	add	x9, x8, #1
	str	x9, [x19, #1032]
	b.lo	.LBB35_736
	mov	x0, x19
	bl	"std_io::io::buffer::Buffer::flush"
	cbz	w0, .LBB35_1870
	ldr	x9, [x19, #1032]
	cmp	x9, #1023
	b.hi	.LBB35_1863
.LBB35_736:
	mov	w8, #121
	strb	w8, [x20, x9]
	cmp	x9, #1023
	add	x8, x9, #1
	str	x8, [x19, #1032]
	b.lo	.LBB35_739
	mov	x0, x19
	bl	"std_io::io::buffer::Buffer::flush"
	cbz	w0, .LBB35_1880
	ldr	x8, [x19, #1032]
	cmp	x8, #1023
	b.hi	.LBB35_1870
.LBB35_739:
	mov	w9, #32
	strb	w9, [x20, x8]
	cmp	x8, #1023
	add	x9, x8, #1
	str	x9, [x19, #1032]
	b.lo	.LBB35_742
	mov	x0, x19
	bl	"std_io::io::buffer::Buffer::flush"
	cbz	w0, .LBB35_1880
	ldr	x9, [x19, #1032]
	cmp	x9, #1023
	b.hi	.LBB35_1870
.LBB35_742:
	mov	w8, #110
	strb	w8, [x20, x9]
	cmp	x9, #1023
	add	x8, x9, #1
	str	x8, [x19, #1032]
	b.lo	.LBB35_745
	mov	x0, x19
	bl	"std_io::io::buffer::Buffer::flush"
	cbz	w0, .LBB35_1892
	ldr	x8, [x19, #1032]
	cmp	x8, #1023
	b.hi	.LBB35_1880
.LBB35_745:
	mov	w9, #111
	strb	w9, [x20, x8]
	cmp	x8, #1023
	add	x9, x8, #1
	str	x9, [x19, #1032]
	b.lo	.LBB35_748
	mov	x0, x19
	bl	"std_io::io::buffer::Buffer::flush"
	cbz	w0, .LBB35_1892
	ldr	x9, [x19, #1032]
	cmp	x9, #1023
	b.hi	.LBB35_1880
.LBB35_748:
	mov	w8, #116
	strb	w8, [x20, x9]
	cmp	x9, #1023
	add	x8, x9, #1
	str	x8, [x19, #1032]
	b.lo	.LBB35_751
	mov	x0, x19
	bl	"std_io::io::buffer::Buffer::flush"
	cbz	w0, .LBB35_1892
	ldr	x8, [x19, #1032]
	cmp	x8, #1023
	b.hi	.LBB35_1880
.LBB35_751:
	mov	w9, #32
	strb	w9, [x20, x8]
	cmp	x8, #1023
	add	x9, x8, #1
	str	x9, [x19, #1032]
	b.lo	.LBB35_754
	mov	x0, x19
	bl	"std_io::io::buffer::Buffer::flush"
	cbz	w0, .LBB35_1892
	ldr	x9, [x19, #1032]
	cmp	x9, #1023
	b.hi	.LBB35_1892
.LBB35_754:
	mov	w8, #101
	strb	w8, [x20, x9]
	cmp	x9, #1023
	add	x8, x9, #1
	str	x8, [x19, #1032]
	b.lo	.LBB35_757
	mov	x0, x19
	bl	"std_io::io::buffer::Buffer::flush"
	cbz	w0, .LBB35_1905
	ldr	x8, [x19, #1032]
	cmp	x8, #1023
	b.hi	.LBB35_1892
.LBB35_757:
	mov	w9, #109
	strb	w9, [x20, x8]
	cmp	x8, #1023
	add	x9, x8, #1
	str	x9, [x19, #1032]
	b.lo	.LBB35_760
	mov	x0, x19
	bl	"std_io::io::buffer::Buffer::flush"
	cbz	w0, .LBB35_1905
	ldr	x9, [x19, #1032]
	cmp	x9, #1023
	b.hi	.LBB35_1892
.LBB35_760:
	mov	w8, #112
	strb	w8, [x20, x9]
	cmp	x9, #1023
	add	x8, x9, #1
	str	x8, [x19, #1032]
	b.lo	.LBB35_763
	mov	x0, x19
	bl	"std_io::io::buffer::Buffer::flush"
	cbz	w0, .LBB35_1905
	ldr	x8, [x19, #1032]
	cmp	x8, #1023
	b.hi	.LBB35_1892
.LBB35_763:
	mov	w9, #116
	strb	w9, [x20, x8]
	cmp	x8, #1023
	add	x9, x8, #1
	str	x9, [x19, #1032]
	b.lo	.LBB35_1799
	mov	x0, x19
	bl	"std_io::io::buffer::Buffer::flush"
	cbz	w0, .LBB35_1905
	ldr	x9, [x19, #1032]
	cmp	x9, #1023
	b.ls	.LBB35_1799
	b	.LBB35_1905
.LBB35_766:
	mov	w8, #116
	strb	w8, [x20, x9]
	cmp	x9, #1023
	add	x8, x9, #1
	str	x8, [x19, #1032]
	b.lo	.LBB35_769
	mov	x0, x19
	bl	"std_io::io::buffer::Buffer::flush"
	cbz	w0, .LBB35_1814
	ldr	x8, [x19, #1032]
	cmp	x8, #1023
	b.hi	.LBB35_1807
.LBB35_769:
	mov	w9, #32
	strb	w9, [x20, x8]
	cmp	x8, #1023
	add	x9, x8, #1
	str	x9, [x19, #1032]
	b.lo	.LBB35_772
	mov	x0, x19
	bl	"std_io::io::buffer::Buffer::flush"
	cbz	w0, .LBB35_1814
	ldr	x9, [x19, #1032]
	cmp	x9, #1023
	b.hi	.LBB35_1807
.LBB35_772:
	mov	w8, #97
	strb	w8, [x20, x9]
	cmp	x9, #1023
	add	x8, x9, #1
	str	x8, [x19, #1032]
	b.lo	.LBB35_775
	mov	x0, x19
	bl	"std_io::io::buffer::Buffer::flush"
	cbz	w0, .LBB35_1863
	ldr	x8, [x19, #1032]
	cmp	x8, #1023
	b.hi	.LBB35_1814
.LBB35_775:
	mov	w9, #32
	strb	w9, [x20, x8]
	cmp	x8, #1023
	add	x9, x8, #1
	str	x9, [x19, #1032]
	b.lo	.LBB35_778
	mov	x0, x19
	bl	"std_io::io::buffer::Buffer::flush"
	cbz	w0, .LBB35_1863
	ldr	x9, [x19, #1032]
	cmp	x9, #1023
	b.hi	.LBB35_1814
.LBB35_778:
	mov	w8, #100
	strb	w8, [x20, x9]
	cmp	x9, #1023
	add	x8, x9, #1
	str	x8, [x19, #1032]
	b.lo	.LBB35_781
	mov	x0, x19
	bl	"std_io::io::buffer::Buffer::flush"
	cbz	w0, .LBB35_1870
	ldr	x8, [x19, #1032]
	cmp	x8, #1023
	b.hi	.LBB35_1863
.LBB35_781:
	mov	w9, #105
	strb	w9, [x20, x8]
	cmp	x8, #1023
	add	x9, x8, #1
	str	x9, [x19, #1032]
	b.lo	.LBB35_784
	mov	x0, x19
	bl	"std_io::io::buffer::Buffer::flush"
	cbz	w0, .LBB35_1870
	ldr	x9, [x19, #1032]
	cmp	x9, #1023
	b.hi	.LBB35_1863
.LBB35_784:
	mov	w8, #114
	strb	w8, [x20, x9]
	cmp	x9, #1023
	add	x8, x9, #1
	str	x8, [x19, #1032]
	b.lo	.LBB35_787
	mov	x0, x19
	bl	"std_io::io::buffer::Buffer::flush"
	cbz	w0, .LBB35_1880
	ldr	x8, [x19, #1032]
	cmp	x8, #1023
	b.hi	.LBB35_1870
.LBB35_787:
	mov	w9, #101
	strb	w9, [x20, x8]
	cmp	x8, #1023
	add	x9, x8, #1
	str	x9, [x19, #1032]
	b.lo	.LBB35_790
	mov	x0, x19
	bl	"std_io::io::buffer::Buffer::flush"
	cbz	w0, .LBB35_1880
	ldr	x9, [x19, #1032]
	cmp	x9, #1023
	b.hi	.LBB35_1870
.LBB35_790:
	mov	w8, #99
	strb	w8, [x20, x9]
	cmp	x9, #1023
	add	x8, x9, #1
	str	x8, [x19, #1032]
	b.lo	.LBB35_793
	mov	x0, x19
	bl	"std_io::io::buffer::Buffer::flush"
	cbz	w0, .LBB35_1892
	ldr	x8, [x19, #1032]
	cmp	x8, #1023
	b.hi	.LBB35_1880
.LBB35_793:
	mov	w9, #116
	strb	w9, [x20, x8]
	cmp	x8, #1023
	add	x9, x8, #1
	str	x9, [x19, #1032]
	b.lo	.LBB35_796
	mov	x0, x19
	bl	"std_io::io::buffer::Buffer::flush"
	cbz	w0, .LBB35_1892
	ldr	x9, [x19, #1032]
	cmp	x9, #1023
	b.hi	.LBB35_1880
.LBB35_796:
	mov	w8, #111
	strb	w8, [x20, x9]
	cmp	x9, #1023
	add	x8, x9, #1
	str	x8, [x19, #1032]
	b.lo	.LBB35_799
	mov	x0, x19
	bl	"std_io::io::buffer::Buffer::flush"
	cbz	w0, .LBB35_1892
	ldr	x8, [x19, #1032]
	cmp	x8, #1023
	b.hi	.LBB35_1880
.LBB35_799:
	mov	w9, #114
	strb	w9, [x20, x8]
	cmp	x8, #1023
	add	x9, x8, #1
	str	x9, [x19, #1032]
	b.lo	.LBB35_1799
	mov	x0, x19
	bl	"std_io::io::buffer::Buffer::flush"
	cbz	w0, .LBB35_1892
	ldr	x9, [x19, #1032]
	cmp	x9, #1023
	b.hi	.LBB35_1892
	b	.LBB35_1799
.LBB35_802:
	mov	w8, #118
	strb	w8, [x20, x9]
	cmp	x9, #1023
	add	x8, x9, #1
	str	x8, [x19, #1032]
	b.lo	.LBB35_805
	mov	x0, x19
	bl	"std_io::io::buffer::Buffer::flush"
	cbz	w0, .LBB35_1814
	ldr	x8, [x19, #1032]
	cmp	x8, #1023
	b.hi	.LBB35_1807
.LBB35_805:
	mov	w9, #97
	strb	w9, [x20, x8]
	cmp	x8, #1023
	add	x9, x8, #1
	str	x9, [x19, #1032]
	b.lo	.LBB35_808
	mov	x0, x19
	bl	"std_io::io::buffer::Buffer::flush"
	cbz	w0, .LBB35_1814
	ldr	x9, [x19, #1032]
	cmp	x9, #1023
	b.hi	.LBB35_1807
.LBB35_808:
	mov	w8, #108
	strb	w8, [x20, x9]
	cmp	x9, #1023
	add	x8, x9, #1
	str	x8, [x19, #1032]
	b.lo	.LBB35_811
	mov	x0, x19
	bl	"std_io::io::buffer::Buffer::flush"
	cbz	w0, .LBB35_1863
	ldr	x8, [x19, #1032]
	cmp	x8, #1023
	b.hi	.LBB35_1814
.LBB35_811:
	mov	w9, #105
	strb	w9, [x20, x8]
	cmp	x8, #1023
	add	x9, x8, #1
	str	x9, [x19, #1032]
	b.lo	.LBB35_814
	mov	x0, x19
	bl	"std_io::io::buffer::Buffer::flush"
	cbz	w0, .LBB35_1863
	ldr	x9, [x19, #1032]
	cmp	x9, #1023
	b.hi	.LBB35_1814
.LBB35_814:
	mov	w8, #100
	strb	w8, [x20, x9]
	cmp	x9, #1023
	add	x8, x9, #1
	str	x8, [x19, #1032]
	b.lo	.LBB35_817
	mov	x0, x19
	bl	"std_io::io::buffer::Buffer::flush"
	cbz	w0, .LBB35_1870
	ldr	x8, [x19, #1032]
	cmp	x8, #1023
	b.hi	.LBB35_1863
.LBB35_817:
	mov	w9, #32
	strb	w9, [x20, x8]
	cmp	x8, #1023
	add	x9, x8, #1
	str	x9, [x19, #1032]
	b.lo	.LBB35_820
	mov	x0, x19
	bl	"std_io::io::buffer::Buffer::flush"
	cbz	w0, .LBB35_1870
	ldr	x9, [x19, #1032]
	cmp	x9, #1023
	b.hi	.LBB35_1863
.LBB35_820:
	mov	w8, #102
	strb	w8, [x20, x9]
	cmp	x9, #1023
	add	x8, x9, #1
	str	x8, [x19, #1032]
	b.lo	.LBB35_823
	mov	x0, x19
	bl	"std_io::io::buffer::Buffer::flush"
	cbz	w0, .LBB35_1880
	ldr	x8, [x19, #1032]
	cmp	x8, #1023
	b.hi	.LBB35_1870
.LBB35_823:
	mov	w9, #105
	strb	w9, [x20, x8]
	cmp	x8, #1023
	add	x9, x8, #1
	str	x9, [x19, #1032]
	b.lo	.LBB35_826
	mov	x0, x19
	bl	"std_io::io::buffer::Buffer::flush"
	cbz	w0, .LBB35_1880
	ldr	x9, [x19, #1032]
	cmp	x9, #1023
	b.hi	.LBB35_1870
.LBB35_826:
	mov	w8, #108
	strb	w8, [x20, x9]
	cmp	x9, #1023
	add	x8, x9, #1
	str	x8, [x19, #1032]
	b.lo	.LBB35_829
	mov	x0, x19
	bl	"std_io::io::buffer::Buffer::flush"
	cbz	w0, .LBB35_1892
	ldr	x8, [x19, #1032]
	cmp	x8, #1023
	b.hi	.LBB35_1880
.LBB35_829:
	mov	w9, #101
	strb	w9, [x20, x8]
	cmp	x8, #1023
	add	x9, x8, #1
	str	x9, [x19, #1032]
	b.lo	.LBB35_832
	mov	x0, x19
	bl	"std_io::io::buffer::Buffer::flush"
	cbz	w0, .LBB35_1892
	ldr	x9, [x19, #1032]
	cmp	x9, #1023
	b.hi	.LBB35_1880
.LBB35_832:
	mov	w8, #110
	strb	w8, [x20, x9]
	cmp	x9, #1023
	add	x8, x9, #1
	str	x8, [x19, #1032]
	b.lo	.LBB35_835
	mov	x0, x19
	bl	"std_io::io::buffer::Buffer::flush"
	cbz	w0, .LBB35_1892
	ldr	x8, [x19, #1032]
	cmp	x8, #1023
	b.hi	.LBB35_1880
.LBB35_835:
	mov	w9, #97
	strb	w9, [x20, x8]
	cmp	x8, #1023
	add	x9, x8, #1
	str	x9, [x19, #1032]
	b.lo	.LBB35_838
	mov	x0, x19
	bl	"std_io::io::buffer::Buffer::flush"
	cbz	w0, .LBB35_1892
	ldr	x9, [x19, #1032]
	cmp	x9, #1023
	b.hi	.LBB35_1892
.LBB35_838:
	mov	w8, #109
	strb	w8, [x20, x9]
	cmp	x9, #1023
	add	x8, x9, #1
	str	x8, [x19, #1032]
	b.lo	.LBB35_1573
	b	.LBB35_1066
.LBB35_839:
	mov	w8, #111
	strb	w8, [x20, x9]
	cmp	x9, #1023
	add	x8, x9, #1
	str	x8, [x19, #1032]
	b.lo	.LBB35_842
	mov	x0, x19
	bl	"std_io::io::buffer::Buffer::flush"
	cbz	w0, .LBB35_1814
	ldr	x8, [x19, #1032]
	cmp	x8, #1023
	b.hi	.LBB35_1807
.LBB35_842:
	mov	w9, #107
	strb	w9, [x20, x8]
	cmp	x8, #1023
	add	x9, x8, #1
	str	x9, [x19, #1032]
	b.lo	.LBB35_845
	mov	x0, x19
	bl	"std_io::io::buffer::Buffer::flush"
	cbz	w0, .LBB35_1814
	ldr	x9, [x19, #1032]
	cmp	x9, #1023
	b.hi	.LBB35_1807
.LBB35_845:
	mov	w8, #101
	strb	w8, [x20, x9]
	cmp	x9, #1023
	add	x8, x9, #1
	str	x8, [x19, #1032]
	b.lo	.LBB35_848
	mov	x0, x19
	bl	"std_io::io::buffer::Buffer::flush"
	cbz	w0, .LBB35_1863
	ldr	x8, [x19, #1032]
	cmp	x8, #1023
	b.hi	.LBB35_1814
.LBB35_848:
	mov	w9, #110
	strb	w9, [x20, x8]
	cmp	x8, #1023
	add	x9, x8, #1
	str	x9, [x19, #1032]
	b.lo	.LBB35_851
	mov	x0, x19
	bl	"std_io::io::buffer::Buffer::flush"
	cbz	w0, .LBB35_1863
	ldr	x9, [x19, #1032]
	cmp	x9, #1023
	b.hi	.LBB35_1814
.LBB35_851:
	mov	w8, #32
	strb	w8, [x20, x9]
	cmp	x9, #1023
	add	x8, x9, #1
	str	x8, [x19, #1032]
	b.lo	.LBB35_854
	mov	x0, x19
	bl	"std_io::io::buffer::Buffer::flush"
	cbz	w0, .LBB35_1870
	ldr	x8, [x19, #1032]
	cmp	x8, #1023
	b.hi	.LBB35_1863
.LBB35_854:
	mov	w9, #112
	strb	w9, [x20, x8]
	cmp	x8, #1023
	add	x9, x8, #1
	str	x9, [x19, #1032]
	b.lo	.LBB35_857
	mov	x0, x19
	bl	"std_io::io::buffer::Buffer::flush"
	cbz	w0, .LBB35_1870
	ldr	x9, [x19, #1032]
	cmp	x9, #1023
	b.hi	.LBB35_1863
.LBB35_857:
	mov	w8, #105
	strb	w8, [x20, x9]
	cmp	x9, #1023
	add	x8, x9, #1
	str	x8, [x19, #1032]
	b.lo	.LBB35_860
	mov	x0, x19
	bl	"std_io::io::buffer::Buffer::flush"
	cbz	w0, .LBB35_1880
	ldr	x8, [x19, #1032]
	cmp	x8, #1023
	b.hi	.LBB35_1870
.LBB35_860:
	mov	w9, #112
	strb	w9, [x20, x8]
	cmp	x8, #1023
	add	x9, x8, #1
	str	x9, [x19, #1032]
	b.lo	.LBB35_863
	mov	x0, x19
	bl	"std_io::io::buffer::Buffer::flush"
	cbz	w0, .LBB35_1880
	ldr	x9, [x19, #1032]
	cmp	x9, #1023
	b.hi	.LBB35_1870
.LBB35_863:
	mov	w0, wzr
	mov	w8, #101
	b	.LBB35_1800
.LBB35_864:
	mov	w8, #115
	strb	w8, [x20, x9]
	cmp	x9, #1023
	add	x8, x9, #1
	str	x8, [x19, #1032]
	b.lo	.LBB35_867
	mov	x0, x19
	bl	"std_io::io::buffer::Buffer::flush"
	cbz	w0, .LBB35_1814
	ldr	x8, [x19, #1032]
	cmp	x8, #1023
	b.hi	.LBB35_1807
.LBB35_867:
	mov	w9, #116
	strb	w9, [x20, x8]
	cmp	x8, #1023
	add	x9, x8, #1
	str	x9, [x19, #1032]
	b.lo	.LBB35_870
	mov	x0, x19
	bl	"std_io::io::buffer::Buffer::flush"
	cbz	w0, .LBB35_1814
	ldr	x9, [x19, #1032]
	cmp	x9, #1023
	b.hi	.LBB35_1807
.LBB35_870:
	mov	w8, #32
	strb	w8, [x20, x9]
	cmp	x9, #1023
	add	x8, x9, #1
	str	x8, [x19, #1032]
	b.lo	.LBB35_873
	mov	x0, x19
	bl	"std_io::io::buffer::Buffer::flush"
	cbz	w0, .LBB35_1863
	ldr	x8, [x19, #1032]
	cmp	x8, #1023
	b.hi	.LBB35_1814
.LBB35_873:
	mov	w9, #117
	strb	w9, [x20, x8]
	cmp	x8, #1023
	add	x9, x8, #1
	str	x9, [x19, #1032]
	b.lo	.LBB35_876
	mov	x0, x19
	bl	"std_io::io::buffer::Buffer::flush"
	cbz	w0, .LBB35_1863
	ldr	x9, [x19, #1032]
	cmp	x9, #1023
	b.hi	.LBB35_1814
.LBB35_876:
	mov	w8, #110
	strb	w8, [x20, x9]
	cmp	x9, #1023
	add	x8, x9, #1
	str	x8, [x19, #1032]
	b.lo	.LBB35_879
	mov	x0, x19
	bl	"std_io::io::buffer::Buffer::flush"
	cbz	w0, .LBB35_1870
	ldr	x8, [x19, #1032]
	cmp	x8, #1023
	b.hi	.LBB35_1863
.LBB35_879:
	mov	w9, #114
	strb	w9, [x20, x8]
	cmp	x8, #1023
	add	x9, x8, #1
	str	x9, [x19, #1032]
	b.lo	.LBB35_882
	mov	x0, x19
	bl	"std_io::io::buffer::Buffer::flush"
	cbz	w0, .LBB35_1870
	ldr	x9, [x19, #1032]
	cmp	x9, #1023
	b.hi	.LBB35_1863
.LBB35_882:
	mov	w8, #101
	strb	w8, [x20, x9]
	cmp	x9, #1023
	add	x8, x9, #1
	str	x8, [x19, #1032]
	b.lo	.LBB35_885
	mov	x0, x19
	bl	"std_io::io::buffer::Buffer::flush"
	cbz	w0, .LBB35_1880
	ldr	x8, [x19, #1032]
	cmp	x8, #1023
	b.hi	.LBB35_1870
.LBB35_885:
	mov	w9, #97
	strb	w9, [x20, x8]
	cmp	x8, #1023
	add	x9, x8, #1
	str	x9, [x19, #1032]
	b.lo	.LBB35_888
	mov	x0, x19
	bl	"std_io::io::buffer::Buffer::flush"
	cbz	w0, .LBB35_1880
	ldr	x9, [x19, #1032]
	cmp	x9, #1023
	b.hi	.LBB35_1870
.LBB35_888:
	mov	w8, #99
	strb	w8, [x20, x9]
	cmp	x9, #1023
	add	x8, x9, #1
	str	x8, [x19, #1032]
	b.lo	.LBB35_891
	mov	x0, x19
	bl	"std_io::io::buffer::Buffer::flush"
	cbz	w0, .LBB35_1892
	ldr	x8, [x19, #1032]
	cmp	x8, #1023
	b.hi	.LBB35_1880
.LBB35_891:
	mov	w9, #104
	strb	w9, [x20, x8]
	cmp	x8, #1023
	add	x9, x8, #1
	str	x9, [x19, #1032]
	b.lo	.LBB35_894
	mov	x0, x19
	bl	"std_io::io::buffer::Buffer::flush"
	cbz	w0, .LBB35_1892
	ldr	x9, [x19, #1032]
	cmp	x9, #1023
	b.hi	.LBB35_1880
.LBB35_894:
	mov	w8, #97
	strb	w8, [x20, x9]
	cmp	x9, #1023
	add	x8, x9, #1
	str	x8, [x19, #1032]
	b.lo	.LBB35_897
	mov	x0, x19
	bl	"std_io::io::buffer::Buffer::flush"
	cbz	w0, .LBB35_1892
	ldr	x8, [x19, #1032]
	cmp	x8, #1023
	b.hi	.LBB35_1880
.LBB35_897:
	mov	w9, #98
	strb	w9, [x20, x8]
	cmp	x8, #1023
	add	x9, x8, #1
	str	x9, [x19, #1032]
	b.lo	.LBB35_900
	mov	x0, x19
	bl	"std_io::io::buffer::Buffer::flush"
	cbz	w0, .LBB35_1892
	ldr	x9, [x19, #1032]
	cmp	x9, #1023
	b.hi	.LBB35_1892
.LBB35_900:
	mov	w8, #108
	strb	w8, [x20, x9]
	cmp	x9, #1023
	add	x8, x9, #1
	str	x8, [x19, #1032]
	b.hs	.LBB35_1066
	b	.LBB35_1573
.LBB35_901:
	mov	w8, #104
	strb	w8, [x20, x9]
	cmp	x9, #1023
	add	x8, x9, #1
	str	x8, [x19, #1032]
	b.lo	.LBB35_904
	mov	x0, x19
	bl	"std_io::io::buffer::Buffer::flush"
	cbz	w0, .LBB35_1814
	ldr	x8, [x19, #1032]
	cmp	x8, #1023
	b.hi	.LBB35_1807
.LBB35_904:
	mov	w9, #101
	strb	w9, [x20, x8]
	cmp	x8, #1023
	add	x9, x8, #1
	str	x9, [x19, #1032]
	b.lo	.LBB35_907
	mov	x0, x19
	bl	"std_io::io::buffer::Buffer::flush"
	cbz	w0, .LBB35_1814
	ldr	x9, [x19, #1032]
	cmp	x9, #1023
	b.hi	.LBB35_1807
.LBB35_907:
	mov	w8, #114
	strb	w8, [x20, x9]
	cmp	x9, #1023
	add	x8, x9, #1
	str	x8, [x19, #1032]
	b.lo	.LBB35_910
	mov	x0, x19
	bl	"std_io::io::buffer::Buffer::flush"
	cbz	w0, .LBB35_1863
	ldr	x8, [x19, #1032]
	cmp	x8, #1023
	b.hi	.LBB35_1814
.LBB35_910:
	mov	w9, #32
	strb	w9, [x20, x8]
	cmp	x8, #1023
	add	x9, x8, #1
	str	x9, [x19, #1032]
	b.lo	.LBB35_913
	mov	x0, x19
	bl	"std_io::io::buffer::Buffer::flush"
	cbz	w0, .LBB35_1863
	ldr	x9, [x19, #1032]
	cmp	x9, #1023
	b.hi	.LBB35_1814
.LBB35_913:
	mov	w8, #101
	strb	w8, [x20, x9]
	cmp	x9, #1023
	add	x8, x9, #1
	str	x8, [x19, #1032]
	b.lo	.LBB35_916
	mov	x0, x19
	bl	"std_io::io::buffer::Buffer::flush"
	cbz	w0, .LBB35_1870
	ldr	x8, [x19, #1032]
	cmp	x8, #1023
	b.hi	.LBB35_1863
.LBB35_916:
	mov	w21, #114
	add	x9, x8, #1
	cmp	x8, #1023
	strb	w21, [x20, x8]
	str	x9, [x19, #1032]
	b.lo	.LBB35_919
	mov	x0, x19
	bl	"std_io::io::buffer::Buffer::flush"
	cbz	w0, .LBB35_1870
	ldr	x9, [x19, #1032]
	cmp	x9, #1023
	b.hi	.LBB35_1863
.LBB35_919:
	add	x8, x9, #1
	cmp	x9, #1023
	strb	w21, [x20, x9]
	str	x8, [x19, #1032]
	b.lo	.LBB35_922
	mov	x0, x19
	bl	"std_io::io::buffer::Buffer::flush"
	cbz	w0, .LBB35_1880
	ldr	x8, [x19, #1032]
	cmp	x8, #1023
	b.hi	.LBB35_1870
.LBB35_922:
	mov	w9, #111
	strb	w9, [x20, x8]
	cmp	x8, #1023
	add	x9, x8, #1
	str	x9, [x19, #1032]
	b.lo	.LBB35_925
	mov	x0, x19
	bl	"std_io::io::buffer::Buffer::flush"
	cbz	w0, .LBB35_1880
	ldr	x9, [x19, #1032]
	cmp	x9, #1023
	b.hi	.LBB35_1870
.LBB35_925:
	mov	w0, wzr
	mov	w8, #114
	b	.LBB35_1800
.LBB35_926:
	mov	w8, #116
	strb	w8, [x20, x9]
	cmp	x9, #1023
	add	x8, x9, #1
	str	x8, [x19, #1032]
	b.lo	.LBB35_929
	mov	x0, x19
	bl	"std_io::io::buffer::Buffer::flush"
	cbz	w0, .LBB35_1814
	ldr	x8, [x19, #1032]
	cmp	x8, #1023
	b.hi	.LBB35_1807
.LBB35_929:
	mov	w9, #105
	strb	w9, [x20, x8]
	cmp	x8, #1023
	add	x9, x8, #1
	str	x9, [x19, #1032]
	b.lo	.LBB35_932
	mov	x0, x19
	bl	"std_io::io::buffer::Buffer::flush"
	cbz	w0, .LBB35_1814
	ldr	x9, [x19, #1032]
	cmp	x9, #1023
	b.hi	.LBB35_1807
.LBB35_932:
	mov	w8, #116
	strb	w8, [x20, x9]
	cmp	x9, #1023
	add	x8, x9, #1
	str	x8, [x19, #1032]
	b.lo	.LBB35_935
	mov	x0, x19
	bl	"std_io::io::buffer::Buffer::flush"
	cbz	w0, .LBB35_1863
	ldr	x8, [x19, #1032]
	cmp	x8, #1023
	b.hi	.LBB35_1814
.LBB35_935:
	mov	w9, #121
	strb	w9, [x20, x8]
	cmp	x8, #1023
	add	x9, x8, #1
	str	x9, [x19, #1032]
	b.lo	.LBB35_938
	mov	x0, x19
	bl	"std_io::io::buffer::Buffer::flush"
	cbz	w0, .LBB35_1863
	ldr	x9, [x19, #1032]
	cmp	x9, #1023
	b.hi	.LBB35_1814
.LBB35_938:
	mov	w8, #32
	strb	w8, [x20, x9]
	cmp	x9, #1023
	add	x8, x9, #1
	str	x8, [x19, #1032]
	b.lo	.LBB35_941
	mov	x0, x19
	bl	"std_io::io::buffer::Buffer::flush"
	cbz	w0, .LBB35_1870
	ldr	x8, [x19, #1032]
	cmp	x8, #1023
	b.hi	.LBB35_1863
.LBB35_941:
	mov	w9, #97
	strb	w9, [x20, x8]
	cmp	x8, #1023
	add	x9, x8, #1
	str	x9, [x19, #1032]
	b.lo	.LBB35_944
	mov	x0, x19
	bl	"std_io::io::buffer::Buffer::flush"
	cbz	w0, .LBB35_1870
	ldr	x9, [x19, #1032]
	cmp	x9, #1023
	b.hi	.LBB35_1863
.LBB35_944:
	mov	w8, #108
	strb	w8, [x20, x9]
	cmp	x9, #1023
	add	x8, x9, #1
	str	x8, [x19, #1032]
	b.lo	.LBB35_947
	mov	x0, x19
	bl	"std_io::io::buffer::Buffer::flush"
	cbz	w0, .LBB35_1880
	ldr	x8, [x19, #1032]
	cmp	x8, #1023
	b.hi	.LBB35_1870
.LBB35_947:
	mov	w9, #114
	strb	w9, [x20, x8]
	cmp	x8, #1023
	add	x9, x8, #1
	str	x9, [x19, #1032]
	b.lo	.LBB35_950
	mov	x0, x19
	bl	"std_io::io::buffer::Buffer::flush"
	cbz	w0, .LBB35_1880
	ldr	x9, [x19, #1032]
	cmp	x9, #1023
	b.hi	.LBB35_1870
.LBB35_950:
	mov	w8, #101
	strb	w8, [x20, x9]
	cmp	x9, #1023
	add	x8, x9, #1
	str	x8, [x19, #1032]
	b.lo	.LBB35_953
	mov	x0, x19
	bl	"std_io::io::buffer::Buffer::flush"
	cbz	w0, .LBB35_1892
	ldr	x8, [x19, #1032]
	cmp	x8, #1023
	b.hi	.LBB35_1880
.LBB35_953:
	mov	w9, #97
	strb	w9, [x20, x8]
	cmp	x8, #1023
	add	x9, x8, #1
	str	x9, [x19, #1032]
	b.lo	.LBB35_956
	mov	x0, x19
	bl	"std_io::io::buffer::Buffer::flush"
	cbz	w0, .LBB35_1892
	ldr	x9, [x19, #1032]
	cmp	x9, #1023
	b.hi	.LBB35_1880
.LBB35_956:
	mov	w8, #100
	strb	w8, [x20, x9]
	cmp	x9, #1023
	add	x8, x9, #1
	str	x8, [x19, #1032]
	b.lo	.LBB35_959
	mov	x0, x19
	bl	"std_io::io::buffer::Buffer::flush"
	cbz	w0, .LBB35_1892
	ldr	x8, [x19, #1032]
	cmp	x8, #1023
	b.hi	.LBB35_1880
.LBB35_959:
	mov	w9, #121
	strb	w9, [x20, x8]
	cmp	x8, #1023
	add	x9, x8, #1
	str	x9, [x19, #1032]
	b.lo	.LBB35_962
	mov	x0, x19
	bl	"std_io::io::buffer::Buffer::flush"
	cbz	w0, .LBB35_1892
	ldr	x9, [x19, #1032]
	cmp	x9, #1023
	b.hi	.LBB35_1892
.LBB35_962:
	mov	w8, #32
	strb	w8, [x20, x9]
	cmp	x9, #1023
	add	x8, x9, #1
	str	x8, [x19, #1032]
	b.lo	.LBB35_965
	mov	x0, x19
	bl	"std_io::io::buffer::Buffer::flush"
	cbz	w0, .LBB35_1905
	ldr	x8, [x19, #1032]
	cmp	x8, #1023
	b.hi	.LBB35_1892
.LBB35_965:
	mov	w9, #101
	strb	w9, [x20, x8]
	cmp	x8, #1023
	add	x9, x8, #1
	str	x9, [x19, #1032]
	b.lo	.LBB35_968
	mov	x0, x19
	bl	"std_io::io::buffer::Buffer::flush"
	cbz	w0, .LBB35_1905
	ldr	x9, [x19, #1032]
	cmp	x9, #1023
	b.hi	.LBB35_1892
.LBB35_968:
	mov	w8, #120
	strb	w8, [x20, x9]
	cmp	x9, #1023
	add	x8, x9, #1
	str	x8, [x19, #1032]
	b.lo	.LBB35_971
	mov	x0, x19
	bl	"std_io::io::buffer::Buffer::flush"
	cbz	w0, .LBB35_1905
	ldr	x8, [x19, #1032]
	cmp	x8, #1023
	b.hi	.LBB35_1892
.LBB35_971:
	mov	w9, #105
	strb	w9, [x20, x8]
	cmp	x8, #1023
	add	x9, x8, #1
	str	x9, [x19, #1032]
	b.lo	.LBB35_974
	mov	x0, x19
	bl	"std_io::io::buffer::Buffer::flush"
	cbz	w0, .LBB35_1905
	ldr	x9, [x19, #1032]
	cmp	x9, #1023
	b.hi	.LBB35_1905
.LBB35_974:
	mov	w8, #115
	strb	w8, [x20, x9]
	cmp	x9, #1023
	add	x8, x9, #1
	str	x8, [x19, #1032]
	b.lo	.LBB35_977
	mov	x0, x19
	bl	"std_io::io::buffer::Buffer::flush"
	cbz	w0, .LBB35_1905
	ldr	x8, [x19, #1032]
	cmp	x8, #1023
	b.hi	.LBB35_1905
.LBB35_977:
	mov	w9, #116
	strb	w9, [x20, x8]
	cmp	x8, #1023
	add	x9, x8, #1
	str	x9, [x19, #1032]
	b.lo	.LBB35_980
	mov	x0, x19
	bl	"std_io::io::buffer::Buffer::flush"
	cbz	w0, .LBB35_1905
	ldr	x9, [x19, #1032]
	cmp	x9, #1023
	b.hi	.LBB35_1905
.LBB35_980:
	mov	w0, wzr
	mov	w8, #115
	b	.LBB35_1800
.LBB35_981:
	add	x8, x9, #1
	cmp	x9, #1023
	strb	w21, [x20, x9]
	str	x8, [x19, #1032]
	b.lo	.LBB35_984
	mov	x0, x19
	bl	"std_io::io::buffer::Buffer::flush"
	cbz	w0, .LBB35_1814
	ldr	x8, [x19, #1032]
	cmp	x8, #1023
	b.hi	.LBB35_1807
.LBB35_984:
	mov	w9, #114
	strb	w9, [x20, x8]
	cmp	x8, #1023
	add	x9, x8, #1
	str	x9, [x19, #1032]
	b.lo	.LBB35_987
	mov	x0, x19
	bl	"std_io::io::buffer::Buffer::flush"
	cbz	w0, .LBB35_1814
	ldr	x9, [x19, #1032]
	cmp	x9, #1023
	b.hi	.LBB35_1807
.LBB35_987:
	mov	w8, #101
	strb	w8, [x20, x9]
	cmp	x9, #1023
	add	x8, x9, #1
	str	x8, [x19, #1032]
	b.lo	.LBB35_990
	mov	x0, x19
	bl	"std_io::io::buffer::Buffer::flush"
	cbz	w0, .LBB35_1863
	ldr	x8, [x19, #1032]
	cmp	x8, #1023
	b.hi	.LBB35_1814
.LBB35_990:
	mov	w21, #115
	add	x9, x8, #1
	cmp	x8, #1023
	strb	w21, [x20, x8]
	str	x9, [x19, #1032]
	b.lo	.LBB35_993
	mov	x0, x19
	bl	"std_io::io::buffer::Buffer::flush"
	cbz	w0, .LBB35_1863
	ldr	x9, [x19, #1032]
	cmp	x9, #1023
	b.hi	.LBB35_1814
.LBB35_993:
	add	x8, x9, #1
	cmp	x9, #1023
	strb	w21, [x20, x9]
	str	x8, [x19, #1032]
	b.lo	.LBB35_996
	mov	x0, x19
	bl	"std_io::io::buffer::Buffer::flush"
	cbz	w0, .LBB35_1870
	ldr	x8, [x19, #1032]
	cmp	x8, #1023
	b.hi	.LBB35_1863
.LBB35_996:
	mov	w9, #32
	strb	w9, [x20, x8]
	cmp	x8, #1023
	add	x9, x8, #1
	str	x9, [x19, #1032]
	b.lo	.LBB35_999
	mov	x0, x19
	bl	"std_io::io::buffer::Buffer::flush"
	cbz	w0, .LBB35_1870
	ldr	x9, [x19, #1032]
	cmp	x9, #1023
	b.hi	.LBB35_1863
.LBB35_999:
	mov	w8, #110
	strb	w8, [x20, x9]
	cmp	x9, #1023
	add	x8, x9, #1
	str	x8, [x19, #1032]
	b.lo	.LBB35_1002
	mov	x0, x19
	bl	"std_io::io::buffer::Buffer::flush"
	cbz	w0, .LBB35_1880
	ldr	x8, [x19, #1032]
	cmp	x8, #1023
	b.hi	.LBB35_1870
.LBB35_1002:
	mov	w9, #111
	strb	w9, [x20, x8]
	cmp	x8, #1023
	add	x9, x8, #1
	str	x9, [x19, #1032]
	b.lo	.LBB35_1005
	mov	x0, x19
	bl	"std_io::io::buffer::Buffer::flush"
	cbz	w0, .LBB35_1880
	ldr	x9, [x19, #1032]
	cmp	x9, #1023
	b.hi	.LBB35_1870
.LBB35_1005:
	mov	w8, #116
	strb	w8, [x20, x9]
	cmp	x9, #1023
	add	x8, x9, #1
	str	x8, [x19, #1032]
	b.lo	.LBB35_1008
	mov	x0, x19
	bl	"std_io::io::buffer::Buffer::flush"
	cbz	w0, .LBB35_1892
	ldr	x8, [x19, #1032]
	cmp	x8, #1023
	b.hi	.LBB35_1880
.LBB35_1008:
	mov	w9, #32
	strb	w9, [x20, x8]
	cmp	x8, #1023
	add	x9, x8, #1
	str	x9, [x19, #1032]
	b.lo	.LBB35_1011
	mov	x0, x19
	bl	"std_io::io::buffer::Buffer::flush"
	cbz	w0, .LBB35_1892
	ldr	x9, [x19, #1032]
	cmp	x9, #1023
	b.hi	.LBB35_1880
.LBB35_1011:
	mov	w8, #97
	strb	w8, [x20, x9]
	cmp	x9, #1023
	add	x8, x9, #1
	str	x8, [x19, #1032]
	b.lo	.LBB35_1014
	mov	x0, x19
	bl	"std_io::io::buffer::Buffer::flush"
	cbz	w0, .LBB35_1892
	ldr	x8, [x19, #1032]
	cmp	x8, #1023
	b.hi	.LBB35_1880
.LBB35_1014:
	mov	w9, #118
	strb	w9, [x20, x8]
	cmp	x8, #1023
	add	x9, x8, #1
	str	x9, [x19, #1032]
	b.lo	.LBB35_1017
	mov	x0, x19
	bl	"std_io::io::buffer::Buffer::flush"
	cbz	w0, .LBB35_1892
	ldr	x9, [x19, #1032]
	cmp	x9, #1023
	b.hi	.LBB35_1892
.LBB35_1017:
	mov	w8, #97
	strb	w8, [x20, x9]
	cmp	x9, #1023
	add	x8, x9, #1
	str	x8, [x19, #1032]
	b.lo	.LBB35_1020
	mov	x0, x19
	bl	"std_io::io::buffer::Buffer::flush"
	cbz	w0, .LBB35_1905
	ldr	x8, [x19, #1032]
	cmp	x8, #1023
	b.hi	.LBB35_1892
.LBB35_1020:
	mov	w9, #105
	strb	w9, [x20, x8]
	cmp	x8, #1023
	add	x9, x8, #1
	str	x9, [x19, #1032]
	b.lo	.LBB35_1023
	mov	x0, x19
	bl	"std_io::io::buffer::Buffer::flush"
	cbz	w0, .LBB35_1905
	ldr	x9, [x19, #1032]
	cmp	x9, #1023
	b.hi	.LBB35_1892
.LBB35_1023:
	mov	w8, #108
	strb	w8, [x20, x9]
	cmp	x9, #1023
	add	x8, x9, #1
	str	x8, [x19, #1032]
	b.lo	.LBB35_1026
	mov	x0, x19
	bl	"std_io::io::buffer::Buffer::flush"
	cbz	w0, .LBB35_1905
	ldr	x8, [x19, #1032]
	cmp	x8, #1023
	b.hi	.LBB35_1905
.LBB35_1026:
	mov	w9, #97
	strb	w9, [x20, x8]
	cmp	x8, #1023
	add	x9, x8, #1
	str	x9, [x19, #1032]
	b.lo	.LBB35_1377
	mov	x0, x19
	bl	"std_io::io::buffer::Buffer::flush"
	cbz	w0, .LBB35_1905
	ldr	x9, [x19, #1032]
	cmp	x9, #1023
	b.hi	.LBB35_1905
	b	.LBB35_1377
.LBB35_1029:
	mov	w8, #32
	strb	w8, [x20, x9]
	cmp	x9, #1023
	add	x8, x9, #1
	str	x8, [x19, #1032]
	b.lo	.LBB35_1032
	mov	x0, x19
	bl	"std_io::io::buffer::Buffer::flush"
	cbz	w0, .LBB35_1814
	ldr	x8, [x19, #1032]
	cmp	x8, #1023
	b.hi	.LBB35_1807
.LBB35_1032:
	mov	w9, #115
	strb	w9, [x20, x8]
	cmp	x8, #1023
	add	x9, x8, #1
	str	x9, [x19, #1032]
	b.lo	.LBB35_1035
	mov	x0, x19
	bl	"std_io::io::buffer::Buffer::flush"
	cbz	w0, .LBB35_1814
	ldr	x9, [x19, #1032]
	cmp	x9, #1023
	b.hi	.LBB35_1807
.LBB35_1035:
	mov	w8, #116
	strb	w8, [x20, x9]
	cmp	x9, #1023
	add	x8, x9, #1
	str	x8, [x19, #1032]
	b.lo	.LBB35_1038
	mov	x0, x19
	bl	"std_io::io::buffer::Buffer::flush"
	cbz	w0, .LBB35_1863
	ldr	x8, [x19, #1032]
	cmp	x8, #1023
	b.hi	.LBB35_1814
.LBB35_1038:
	mov	w9, #111
	strb	w9, [x20, x8]
	cmp	x8, #1023
	add	x9, x8, #1
	str	x9, [x19, #1032]
	b.lo	.LBB35_1041
	mov	x0, x19
	bl	"std_io::io::buffer::Buffer::flush"
	cbz	w0, .LBB35_1863
	ldr	x9, [x19, #1032]
	cmp	x9, #1023
	b.hi	.LBB35_1814
.LBB35_1041:
	mov	w8, #114
	strb	w8, [x20, x9]
	cmp	x9, #1023
	add	x8, x9, #1
	str	x8, [x19, #1032]
	b.lo	.LBB35_1044
	mov	x0, x19
	bl	"std_io::io::buffer::Buffer::flush"
	cbz	w0, .LBB35_1870
	ldr	x8, [x19, #1032]
	cmp	x8, #1023
	b.hi	.LBB35_1863
.LBB35_1044:
	mov	w9, #97
	strb	w9, [x20, x8]
	cmp	x8, #1023
	add	x9, x8, #1
	str	x9, [x19, #1032]
	b.lo	.LBB35_1047
	mov	x0, x19
	bl	"std_io::io::buffer::Buffer::flush"
	cbz	w0, .LBB35_1870
	ldr	x9, [x19, #1032]
	cmp	x9, #1023
	b.hi	.LBB35_1863
.LBB35_1047:
	mov	w8, #103
	strb	w8, [x20, x9]
	cmp	x9, #1023
	add	x8, x9, #1
	str	x8, [x19, #1032]
	b.lo	.LBB35_1050
	mov	x0, x19
	bl	"std_io::io::buffer::Buffer::flush"
	cbz	w0, .LBB35_1880
	ldr	x8, [x19, #1032]
	cmp	x8, #1023
	b.hi	.LBB35_1870
.LBB35_1050:
	mov	w9, #101
	strb	w9, [x20, x8]
	cmp	x8, #1023
	add	x9, x8, #1
	str	x9, [x19, #1032]
	b.lo	.LBB35_1053
	mov	x0, x19
	bl	"std_io::io::buffer::Buffer::flush"
	cbz	w0, .LBB35_1880
	ldr	x9, [x19, #1032]
	cmp	x9, #1023
	b.hi	.LBB35_1870
.LBB35_1053:
	mov	w8, #32
	strb	w8, [x20, x9]
	cmp	x9, #1023
	add	x8, x9, #1
	str	x8, [x19, #1032]
	b.lo	.LBB35_1056
	mov	x0, x19
	bl	"std_io::io::buffer::Buffer::flush"
	cbz	w0, .LBB35_1892
	ldr	x8, [x19, #1032]
	cmp	x8, #1023
	b.hi	.LBB35_1880
.LBB35_1056:
	mov	w9, #115
	strb	w9, [x20, x8]
	cmp	x8, #1023
	add	x9, x8, #1
	str	x9, [x19, #1032]
	b.lo	.LBB35_1059
	mov	x0, x19
	bl	"std_io::io::buffer::Buffer::flush"
	cbz	w0, .LBB35_1892
	ldr	x9, [x19, #1032]
	cmp	x9, #1023
	b.hi	.LBB35_1880
.LBB35_1059:
	mov	w8, #112
	strb	w8, [x20, x9]
	cmp	x9, #1023
	add	x8, x9, #1
	str	x8, [x19, #1032]
	b.lo	.LBB35_1062
	mov	x0, x19
	bl	"std_io::io::buffer::Buffer::flush"
	cbz	w0, .LBB35_1892
	ldr	x8, [x19, #1032]
	cmp	x8, #1023
	b.hi	.LBB35_1880
.LBB35_1062:
	mov	w9, #97
	strb	w9, [x20, x8]
	cmp	x8, #1023
	add	x9, x8, #1
	str	x9, [x19, #1032]
	b.lo	.LBB35_1065
	mov	x0, x19
	bl	"std_io::io::buffer::Buffer::flush"
	cbz	w0, .LBB35_1892
	ldr	x9, [x19, #1032]
	cmp	x9, #1023
	b.hi	.LBB35_1892
.LBB35_1065:
	mov	w8, #99
	strb	w8, [x20, x9]
	cmp	x9, #1023
	add	x8, x9, #1
	str	x8, [x19, #1032]
	b.lo	.LBB35_1573
.LBB35_1066:
	mov	x0, x19
	bl	"std_io::io::buffer::Buffer::flush"
	cbz	w0, .LBB35_1905
	ldr	x8, [x19, #1032]
	cmp	x8, #1023
	b.ls	.LBB35_1573
	b	.LBB35_1892
.LBB35_1068:
	mov	w21, #110
	add	x10, x9, #1
	cmp	x9, #1023
	strb	w21, [x20, x9]
	str	x10, [x19, #1032]
	b.lo	.LBB35_1071
	mov	x0, x19
	bl	"std_io::io::buffer::Buffer::flush"
	cbz	w0, .LBB35_1814
	ldr	x10, [x19, #1032]
	cmp	x10, #1023
	b.hi	.LBB35_1807
.LBB35_1071:
	add	x8, x10, #1
	cmp	x10, #1023
	strb	w21, [x20, x10]
	str	x8, [x19, #1032]
	b.lo	.LBB35_1074
	mov	x0, x19
	bl	"std_io::io::buffer::Buffer::flush"
	cbz	w0, .LBB35_1814
	ldr	x8, [x19, #1032]
	cmp	x8, #1023
	b.hi	.LBB35_1807
.LBB35_1074:
	mov	w9, #101
	strb	w9, [x20, x8]
	cmp	x8, #1023
	add	x9, x8, #1
	str	x9, [x19, #1032]
	b.lo	.LBB35_1077
	mov	x0, x19
	bl	"std_io::io::buffer::Buffer::flush"
	cbz	w0, .LBB35_1863
	ldr	x9, [x19, #1032]
	cmp	x9, #1023
	b.hi	.LBB35_1814
.LBB35_1077:
	mov	w8, #99
	strb	w8, [x20, x9]
	cmp	x9, #1023
	add	x8, x9, #1
	str	x8, [x19, #1032]
	b.lo	.LBB35_1080
	mov	x0, x19
	bl	"std_io::io::buffer::Buffer::flush"
	cbz	w0, .LBB35_1863
	ldr	x8, [x19, #1032]
	cmp	x8, #1023
	b.hi	.LBB35_1814
.LBB35_1080:
	mov	w9, #116
	strb	w9, [x20, x8]
	cmp	x8, #1023
	add	x9, x8, #1
	str	x9, [x19, #1032]
	b.lo	.LBB35_1083
	mov	x0, x19
	bl	"std_io::io::buffer::Buffer::flush"
	cbz	w0, .LBB35_1870
	ldr	x9, [x19, #1032]
	cmp	x9, #1023
	b.hi	.LBB35_1863
.LBB35_1083:
	mov	w8, #105
	strb	w8, [x20, x9]
	cmp	x9, #1023
	add	x8, x9, #1
	str	x8, [x19, #1032]
	b.lo	.LBB35_1086
	mov	x0, x19
	bl	"std_io::io::buffer::Buffer::flush"
	cbz	w0, .LBB35_1870
	ldr	x8, [x19, #1032]
	cmp	x8, #1023
	b.hi	.LBB35_1863
.LBB35_1086:
	mov	w9, #111
	strb	w9, [x20, x8]
	cmp	x8, #1023
	add	x9, x8, #1
	str	x9, [x19, #1032]
	b.lo	.LBB35_1089
	mov	x0, x19
	bl	"std_io::io::buffer::Buffer::flush"
	cbz	w0, .LBB35_1880
	ldr	x9, [x19, #1032]
	cmp	x9, #1023
	b.hi	.LBB35_1870
.LBB35_1089:
	mov	w8, #110
	strb	w8, [x20, x9]
	cmp	x9, #1023
	add	x8, x9, #1
	str	x8, [x19, #1032]
	b.lo	.LBB35_1092
	mov	x0, x19
	bl	"std_io::io::buffer::Buffer::flush"
	cbz	w0, .LBB35_1880
	ldr	x8, [x19, #1032]
	cmp	x8, #1023
	b.hi	.LBB35_1870
.LBB35_1092:
	mov	w9, #32
	strb	w9, [x20, x8]
	cmp	x8, #1023
	add	x9, x8, #1
	str	x9, [x19, #1032]
	b.lo	.LBB35_1095
	mov	x0, x19
	bl	"std_io::io::buffer::Buffer::flush"
	cbz	w0, .LBB35_1892
	ldr	x9, [x19, #1032]
	cmp	x9, #1023
	b.hi	.LBB35_1880
.LBB35_1095:
	mov	w8, #114
	strb	w8, [x20, x9]
	cmp	x9, #1023
	add	x8, x9, #1
	str	x8, [x19, #1032]
	b.lo	.LBB35_1098
	mov	x0, x19
	bl	"std_io::io::buffer::Buffer::flush"
	cbz	w0, .LBB35_1892
	ldr	x8, [x19, #1032]
	cmp	x8, #1023
	b.hi	.LBB35_1880
.LBB35_1098:
	mov	w9, #101
	strb	w9, [x20, x8]
	cmp	x8, #1023
	add	x9, x8, #1
	str	x9, [x19, #1032]
	b.lo	.LBB35_1101
	mov	x0, x19
	bl	"std_io::io::buffer::Buffer::flush"
	cbz	w0, .LBB35_1892
	ldr	x9, [x19, #1032]
	cmp	x9, #1023
	b.hi	.LBB35_1880
.LBB35_1101:
	mov	w8, #102
	strb	w8, [x20, x9]
	cmp	x9, #1023
	add	x8, x9, #1
	str	x8, [x19, #1032]
	b.lo	.LBB35_1104
	mov	x0, x19
	bl	"std_io::io::buffer::Buffer::flush"
	cbz	w0, .LBB35_1892
	ldr	x8, [x19, #1032]
	cmp	x8, #1023
	b.hi	.LBB35_1892
.LBB35_1104:
	mov	w9, #117
	strb	w9, [x20, x8]
	cmp	x8, #1023
	add	x9, x8, #1
	str	x9, [x19, #1032]
	b.lo	.LBB35_1107
	mov	x0, x19
	bl	"std_io::io::buffer::Buffer::flush"
	cbz	w0, .LBB35_1905
	ldr	x9, [x19, #1032]
	cmp	x9, #1023
	b.hi	.LBB35_1892
.LBB35_1107:
	mov	w8, #115
	strb	w8, [x20, x9]
	cmp	x9, #1023
	add	x8, x9, #1
	str	x8, [x19, #1032]
	b.lo	.LBB35_1508
	b	.LBB35_1506
.LBB35_1108:
	mov	w8, #32
	strb	w8, [x20, x9]
	cmp	x9, #1023
	add	x8, x9, #1
	str	x8, [x19, #1032]
	b.lo	.LBB35_1111
	mov	x0, x19
	bl	"std_io::io::buffer::Buffer::flush"
	cbz	w0, .LBB35_1814
	ldr	x8, [x19, #1032]
	cmp	x8, #1023
	b.hi	.LBB35_1807
.LBB35_1111:
	mov	w9, #97
	strb	w9, [x20, x8]
	cmp	x8, #1023
	add	x9, x8, #1
	str	x9, [x19, #1032]
	b.lo	.LBB35_1114
	mov	x0, x19
	bl	"std_io::io::buffer::Buffer::flush"
	cbz	w0, .LBB35_1814
	ldr	x9, [x19, #1032]
	cmp	x9, #1023
	b.hi	.LBB35_1807
.LBB35_1114:
	mov	w8, #32
	strb	w8, [x20, x9]
	cmp	x9, #1023
	add	x8, x9, #1
	str	x8, [x19, #1032]
	b.lo	.LBB35_1117
	mov	x0, x19
	bl	"std_io::io::buffer::Buffer::flush"
	cbz	w0, .LBB35_1863
	ldr	x8, [x19, #1032]
	cmp	x8, #1023
	b.hi	.LBB35_1814
.LBB35_1117:
	mov	w9, #100
	strb	w9, [x20, x8]
	cmp	x8, #1023
	add	x9, x8, #1
	str	x9, [x19, #1032]
	b.lo	.LBB35_1120
	mov	x0, x19
	bl	"std_io::io::buffer::Buffer::flush"
	cbz	w0, .LBB35_1863
	ldr	x9, [x19, #1032]
	cmp	x9, #1023
	b.hi	.LBB35_1814
.LBB35_1120:
	mov	w8, #105
	strb	w8, [x20, x9]
	cmp	x9, #1023
	add	x8, x9, #1
	str	x8, [x19, #1032]
	b.lo	.LBB35_1123
	mov	x0, x19
	bl	"std_io::io::buffer::Buffer::flush"
	cbz	w0, .LBB35_1870
	ldr	x8, [x19, #1032]
	cmp	x8, #1023
	b.hi	.LBB35_1863
.LBB35_1123:
	mov	w9, #114
	strb	w9, [x20, x8]
	cmp	x8, #1023
	add	x9, x8, #1
	str	x9, [x19, #1032]
	b.lo	.LBB35_1126
	mov	x0, x19
	bl	"std_io::io::buffer::Buffer::flush"
	cbz	w0, .LBB35_1870
	ldr	x9, [x19, #1032]
	cmp	x9, #1023
	b.hi	.LBB35_1863
.LBB35_1126:
	mov	w8, #101
	strb	w8, [x20, x9]
	cmp	x9, #1023
	add	x8, x9, #1
	str	x8, [x19, #1032]
	b.lo	.LBB35_1129
	mov	x0, x19
	bl	"std_io::io::buffer::Buffer::flush"
	cbz	w0, .LBB35_1880
	ldr	x8, [x19, #1032]
	cmp	x8, #1023
	b.hi	.LBB35_1870
.LBB35_1129:
	mov	w9, #99
	strb	w9, [x20, x8]
	cmp	x8, #1023
	add	x9, x8, #1
	str	x9, [x19, #1032]
	b.lo	.LBB35_1132
	mov	x0, x19
	bl	"std_io::io::buffer::Buffer::flush"
	cbz	w0, .LBB35_1880
	ldr	x9, [x19, #1032]
	cmp	x9, #1023
	b.hi	.LBB35_1870
.LBB35_1132:
	mov	w8, #116
	strb	w8, [x20, x9]
	cmp	x9, #1023
	add	x8, x9, #1
	str	x8, [x19, #1032]
	b.lo	.LBB35_1135
	mov	x0, x19
	bl	"std_io::io::buffer::Buffer::flush"
	cbz	w0, .LBB35_1892
	ldr	x8, [x19, #1032]
	cmp	x8, #1023
	b.hi	.LBB35_1880
.LBB35_1135:
	mov	w9, #111
	strb	w9, [x20, x8]
	cmp	x8, #1023
	add	x9, x8, #1
	str	x9, [x19, #1032]
	b.lo	.LBB35_1138
	mov	x0, x19
	bl	"std_io::io::buffer::Buffer::flush"
	cbz	w0, .LBB35_1892
	ldr	x9, [x19, #1032]
	cmp	x9, #1023
	b.hi	.LBB35_1880
.LBB35_1138:
	mov	w8, #114
	strb	w8, [x20, x9]
	cmp	x9, #1023
	add	x8, x9, #1
	str	x8, [x19, #1032]
	b.lo	.LBB35_1141
	mov	x0, x19
	bl	"std_io::io::buffer::Buffer::flush"
	cbz	w0, .LBB35_1892
	ldr	x8, [x19, #1032]
	cmp	x8, #1023
	b.hi	.LBB35_1880
.LBB35_1141:
	mov	w0, wzr
	mov	w9, #121
	b	.LBB35_1882
.LBB35_1142:
	mov	w21, #110
	add	x10, x9, #1
	cmp	x9, #1023
	strb	w21, [x20, x9]
	str	x10, [x19, #1032]
	b.lo	.LBB35_1145
	mov	x0, x19
	bl	"std_io::io::buffer::Buffer::flush"
	cbz	w0, .LBB35_1814
	ldr	x10, [x19, #1032]
	cmp	x10, #1023
	b.hi	.LBB35_1807
.LBB35_1145:
	add	x8, x10, #1
	cmp	x10, #1023
	strb	w21, [x20, x10]
	str	x8, [x19, #1032]
	b.lo	.LBB35_1148
	mov	x0, x19
	bl	"std_io::io::buffer::Buffer::flush"
	cbz	w0, .LBB35_1814
	ldr	x8, [x19, #1032]
	cmp	x8, #1023
	b.hi	.LBB35_1807
.LBB35_1148:
	mov	w9, #101
	strb	w9, [x20, x8]
	cmp	x8, #1023
	add	x9, x8, #1
	str	x9, [x19, #1032]
	b.lo	.LBB35_1151
	mov	x0, x19
	bl	"std_io::io::buffer::Buffer::flush"
	cbz	w0, .LBB35_1863
	ldr	x9, [x19, #1032]
	cmp	x9, #1023
	b.hi	.LBB35_1814
.LBB35_1151:
	mov	w8, #99
	strb	w8, [x20, x9]
	cmp	x9, #1023
	add	x8, x9, #1
	str	x8, [x19, #1032]
	b.lo	.LBB35_1154
	mov	x0, x19
	bl	"std_io::io::buffer::Buffer::flush"
	cbz	w0, .LBB35_1863
	ldr	x8, [x19, #1032]
	cmp	x8, #1023
	b.hi	.LBB35_1814
.LBB35_1154:
	mov	w9, #116
	strb	w9, [x20, x8]
	cmp	x8, #1023
	add	x9, x8, #1
	str	x9, [x19, #1032]
	b.lo	.LBB35_1157
	mov	x0, x19
	bl	"std_io::io::buffer::Buffer::flush"
	cbz	w0, .LBB35_1870
	ldr	x9, [x19, #1032]
	cmp	x9, #1023
	b.hi	.LBB35_1863
.LBB35_1157:
	mov	w8, #105
	strb	w8, [x20, x9]
	cmp	x9, #1023
	add	x8, x9, #1
	str	x8, [x19, #1032]
	b.lo	.LBB35_1160
	mov	x0, x19
	bl	"std_io::io::buffer::Buffer::flush"
	cbz	w0, .LBB35_1870
	ldr	x8, [x19, #1032]
	cmp	x8, #1023
	b.hi	.LBB35_1863
.LBB35_1160:
	mov	w9, #111
	strb	w9, [x20, x8]
	cmp	x8, #1023
	add	x9, x8, #1
	str	x9, [x19, #1032]
	b.lo	.LBB35_1163
	mov	x0, x19
	bl	"std_io::io::buffer::Buffer::flush"
	cbz	w0, .LBB35_1880
	ldr	x9, [x19, #1032]
	cmp	x9, #1023
	b.hi	.LBB35_1870
.LBB35_1163:
	mov	w8, #110
	strb	w8, [x20, x9]
	cmp	x9, #1023
	add	x8, x9, #1
	str	x8, [x19, #1032]
	b.lo	.LBB35_1166
	mov	x0, x19
	bl	"std_io::io::buffer::Buffer::flush"
	cbz	w0, .LBB35_1880
	ldr	x8, [x19, #1032]
	cmp	x8, #1023
	b.hi	.LBB35_1870
.LBB35_1166:
	mov	w9, #32
	strb	w9, [x20, x8]
	cmp	x8, #1023
	add	x9, x8, #1
	str	x9, [x19, #1032]
	b.lo	.LBB35_1169
	mov	x0, x19
	bl	"std_io::io::buffer::Buffer::flush"
	cbz	w0, .LBB35_1892
	ldr	x9, [x19, #1032]
	cmp	x9, #1023
	b.hi	.LBB35_1880
.LBB35_1169:
	mov	w8, #114
	strb	w8, [x20, x9]
	cmp	x9, #1023
	add	x8, x9, #1
	str	x8, [x19, #1032]
	b.lo	.LBB35_1172
	mov	x0, x19
	bl	"std_io::io::buffer::Buffer::flush"
	cbz	w0, .LBB35_1892
	ldr	x8, [x19, #1032]
	cmp	x8, #1023
	b.hi	.LBB35_1880
.LBB35_1172:
	mov	w9, #101
	strb	w9, [x20, x8]
	cmp	x8, #1023
	add	x9, x8, #1
	str	x9, [x19, #1032]
	b.lo	.LBB35_1175
	mov	x0, x19
	bl	"std_io::io::buffer::Buffer::flush"
	cbz	w0, .LBB35_1892
	ldr	x9, [x19, #1032]
	cmp	x9, #1023
	b.hi	.LBB35_1880
.LBB35_1175:
	mov	w8, #115
	strb	w8, [x20, x9]
	cmp	x9, #1023
	add	x8, x9, #1
	str	x8, [x19, #1032]
	b.lo	.LBB35_1178
	mov	x0, x19
	bl	"std_io::io::buffer::Buffer::flush"
	cbz	w0, .LBB35_1892
	ldr	x8, [x19, #1032]
	cmp	x8, #1023
	b.hi	.LBB35_1892
.LBB35_1178:
	mov	w9, #101
	strb	w9, [x20, x8]
	cmp	x8, #1023
	add	x9, x8, #1
	str	x9, [x19, #1032]
	b.lo	.LBB35_1642
	mov	x0, x19
	bl	"std_io::io::buffer::Buffer::flush"
	cbz	w0, .LBB35_1905
	ldr	x9, [x19, #1032]
	cmp	x9, #1023
	b.hi	.LBB35_1905
	b	.LBB35_1642
.LBB35_1181:
	mov	w8, #116
	strb	w8, [x20, x9]
	cmp	x9, #1023
	add	x8, x9, #1
	str	x8, [x19, #1032]
	b.lo	.LBB35_1184
	mov	x0, x19
	bl	"std_io::io::buffer::Buffer::flush"
	cbz	w0, .LBB35_1814
	ldr	x8, [x19, #1032]
	cmp	x8, #1023
	b.hi	.LBB35_1807
.LBB35_1184:
	mov	w9, #32
	strb	w9, [x20, x8]
	cmp	x8, #1023
	add	x9, x8, #1
	str	x9, [x19, #1032]
	b.lo	.LBB35_1187
	mov	x0, x19
	bl	"std_io::io::buffer::Buffer::flush"
	cbz	w0, .LBB35_1814
	ldr	x9, [x19, #1032]
	cmp	x9, #1023
	b.hi	.LBB35_1807
.LBB35_1187:
	mov	w8, #99
	strb	w8, [x20, x9]
	cmp	x9, #1023
	add	x8, x9, #1
	str	x8, [x19, #1032]
	b.lo	.LBB35_1190
	mov	x0, x19
	bl	"std_io::io::buffer::Buffer::flush"
	cbz	w0, .LBB35_1863
	ldr	x8, [x19, #1032]
	cmp	x8, #1023
	b.hi	.LBB35_1814
.LBB35_1190:
	mov	w9, #111
	strb	w9, [x20, x8]
	cmp	x8, #1023
	add	x9, x8, #1
	str	x9, [x19, #1032]
	b.lo	.LBB35_1193
	mov	x0, x19
	bl	"std_io::io::buffer::Buffer::flush"
	cbz	w0, .LBB35_1863
	ldr	x9, [x19, #1032]
	cmp	x9, #1023
	b.hi	.LBB35_1814
.LBB35_1193:
	mov	w21, #110
	add	x10, x9, #1
	cmp	x9, #1023
	strb	w21, [x20, x9]
	str	x10, [x19, #1032]
	b.lo	.LBB35_1196
	mov	x0, x19
	bl	"std_io::io::buffer::Buffer::flush"
	cbz	w0, .LBB35_1870
	ldr	x10, [x19, #1032]
	cmp	x10, #1023
	b.hi	.LBB35_1863
.LBB35_1196:
	add	x8, x10, #1
	cmp	x10, #1023
	strb	w21, [x20, x10]
	str	x8, [x19, #1032]
	b.lo	.LBB35_1199
	mov	x0, x19
	bl	"std_io::io::buffer::Buffer::flush"
	cbz	w0, .LBB35_1870
	ldr	x8, [x19, #1032]
	cmp	x8, #1023
	b.hi	.LBB35_1863
.LBB35_1199:
	mov	w9, #101
	strb	w9, [x20, x8]
	cmp	x8, #1023
	add	x9, x8, #1
	str	x9, [x19, #1032]
	b.lo	.LBB35_1202
	mov	x0, x19
	bl	"std_io::io::buffer::Buffer::flush"
	cbz	w0, .LBB35_1880
	ldr	x9, [x19, #1032]
	cmp	x9, #1023
	b.hi	.LBB35_1870
.LBB35_1202:
	mov	w8, #99
	strb	w8, [x20, x9]
	cmp	x9, #1023
	add	x8, x9, #1
	str	x8, [x19, #1032]
	b.lo	.LBB35_1205
	mov	x0, x19
	bl	"std_io::io::buffer::Buffer::flush"
	cbz	w0, .LBB35_1880
	ldr	x8, [x19, #1032]
	cmp	x8, #1023
	b.hi	.LBB35_1870
.LBB35_1205:
	mov	w9, #116
	strb	w9, [x20, x8]
	cmp	x8, #1023
	add	x9, x8, #1
	str	x9, [x19, #1032]
	b.lo	.LBB35_1877
	b	.LBB35_1875
.LBB35_1206:
	mov	w8, #116
	strb	w8, [x20, x9]
	cmp	x9, #1023
	add	x8, x9, #1
	str	x8, [x19, #1032]
	b.lo	.LBB35_1209
	mov	x0, x19
	bl	"std_io::io::buffer::Buffer::flush"
	cbz	w0, .LBB35_1814
	ldr	x8, [x19, #1032]
	cmp	x8, #1023
	b.hi	.LBB35_1807
.LBB35_1209:
	mov	w9, #105
	strb	w9, [x20, x8]
	cmp	x8, #1023
	add	x9, x8, #1
	str	x9, [x19, #1032]
	b.lo	.LBB35_1212
	mov	x0, x19
	bl	"std_io::io::buffer::Buffer::flush"
	cbz	w0, .LBB35_1863
	ldr	x9, [x19, #1032]
	cmp	x9, #1023
	b.hi	.LBB35_1807
.LBB35_1212:
	mov	w8, #116
	strb	w8, [x20, x9]
	cmp	x9, #1023
	add	x8, x9, #1
	str	x8, [x19, #1032]
	b.lo	.LBB35_1215
	mov	x0, x19
	bl	"std_io::io::buffer::Buffer::flush"
	cbz	w0, .LBB35_1863
	ldr	x8, [x19, #1032]
	cmp	x8, #1023
	b.hi	.LBB35_1814
.LBB35_1215:
	mov	w9, #121
	strb	w9, [x20, x8]
	cmp	x8, #1023
	add	x9, x8, #1
	str	x9, [x19, #1032]
	b.lo	.LBB35_1218
	mov	x0, x19
	bl	"std_io::io::buffer::Buffer::flush"
	cbz	w0, .LBB35_1863
	ldr	x9, [x19, #1032]
	cmp	x9, #1023
	b.hi	.LBB35_1814
.LBB35_1218:
	mov	w8, #32
	strb	w8, [x20, x9]
	cmp	x9, #1023
	add	x8, x9, #1
	str	x8, [x19, #1032]
	b.lo	.LBB35_1221
	mov	x0, x19
	bl	"std_io::io::buffer::Buffer::flush"
	cbz	w0, .LBB35_1870
	ldr	x8, [x19, #1032]
	cmp	x8, #1023
	b.hi	.LBB35_1863
.LBB35_1221:
	mov	w9, #110
	strb	w9, [x20, x8]
	cmp	x8, #1023
	add	x9, x8, #1
	str	x9, [x19, #1032]
	b.lo	.LBB35_1224
	mov	x0, x19
	bl	"std_io::io::buffer::Buffer::flush"
	cbz	w0, .LBB35_1870
	ldr	x9, [x19, #1032]
	cmp	x9, #1023
	b.hi	.LBB35_1863
.LBB35_1224:
	mov	w8, #111
	strb	w8, [x20, x9]
	cmp	x9, #1023
	add	x8, x9, #1
	str	x8, [x19, #1032]
	b.lo	.LBB35_1227
	mov	x0, x19
	bl	"std_io::io::buffer::Buffer::flush"
	cbz	w0, .LBB35_1880
	ldr	x8, [x19, #1032]
	cmp	x8, #1023
	b.hi	.LBB35_1870
.LBB35_1227:
	mov	w9, #116
	strb	w9, [x20, x8]
	cmp	x8, #1023
	add	x9, x8, #1
	str	x9, [x19, #1032]
	b.lo	.LBB35_1230
	mov	x0, x19
	bl	"std_io::io::buffer::Buffer::flush"
	cbz	w0, .LBB35_1880
	ldr	x9, [x19, #1032]
	cmp	x9, #1023
	b.hi	.LBB35_1870
.LBB35_1230:
	mov	w8, #32
	strb	w8, [x20, x9]
	cmp	x9, #1023
	add	x8, x9, #1
	str	x8, [x19, #1032]
	b.lo	.LBB35_1233
	mov	x0, x19
	bl	"std_io::io::buffer::Buffer::flush"
	cbz	w0, .LBB35_1892
	ldr	x8, [x19, #1032]
	cmp	x8, #1023
	b.hi	.LBB35_1880
.LBB35_1233:
	mov	w9, #102
	strb	w9, [x20, x8]
	cmp	x8, #1023
	add	x9, x8, #1
	str	x9, [x19, #1032]
	b.lo	.LBB35_1236
	mov	x0, x19
	bl	"std_io::io::buffer::Buffer::flush"
	cbz	w0, .LBB35_1892
	ldr	x9, [x19, #1032]
	cmp	x9, #1023
	b.hi	.LBB35_1880
.LBB35_1236:
	mov	w8, #111
	strb	w8, [x20, x9]
	cmp	x9, #1023
	add	x8, x9, #1
	str	x8, [x19, #1032]
	b.lo	.LBB35_1239
	mov	x0, x19
	bl	"std_io::io::buffer::Buffer::flush"
	cbz	w0, .LBB35_1892
	ldr	x8, [x19, #1032]
	cmp	x8, #1023
	b.hi	.LBB35_1880
.LBB35_1239:
	mov	w9, #117
	strb	w9, [x20, x8]
	cmp	x8, #1023
	add	x9, x8, #1
	str	x9, [x19, #1032]
	b.lo	.LBB35_1242
	mov	x0, x19
	bl	"std_io::io::buffer::Buffer::flush"
	cbz	w0, .LBB35_1892
	ldr	x9, [x19, #1032]
	cmp	x9, #1023
	b.hi	.LBB35_1892
.LBB35_1242:
	mov	w8, #110
	strb	w8, [x20, x9]
	cmp	x9, #1023
	add	x8, x9, #1
	str	x8, [x19, #1032]
	b.lo	.LBB35_1881
	mov	x0, x19
	bl	"std_io::io::buffer::Buffer::flush"
	cbz	w0, .LBB35_1905
	ldr	x8, [x19, #1032]
	cmp	x8, #1023
	b.hi	.LBB35_1892
	b	.LBB35_1881
.LBB35_1245:
	mov	w8, #114
	strb	w8, [x20, x9]
	cmp	x9, #1023
	add	x8, x9, #1
	str	x8, [x19, #1032]
	b.lo	.LBB35_1248
	mov	x0, x19
	bl	"std_io::io::buffer::Buffer::flush"
	cbz	w0, .LBB35_1814
	ldr	x8, [x19, #1032]
	cmp	x8, #1023
	b.hi	.LBB35_1807
.LBB35_1248:
	mov	w9, #109
	strb	w9, [x20, x8]
	cmp	x8, #1023
	add	x9, x8, #1
	str	x9, [x19, #1032]
	b.lo	.LBB35_1251
	mov	x0, x19
	bl	"std_io::io::buffer::Buffer::flush"
	cbz	w0, .LBB35_1863
	ldr	x9, [x19, #1032]
	cmp	x9, #1023
	b.hi	.LBB35_1807
.LBB35_1251:
	mov	w8, #105
	strb	w8, [x20, x9]
	cmp	x9, #1023
	add	x8, x9, #1
	str	x8, [x19, #1032]
	b.lo	.LBB35_1254
	mov	x0, x19
	bl	"std_io::io::buffer::Buffer::flush"
	cbz	w0, .LBB35_1863
	ldr	x8, [x19, #1032]
	cmp	x8, #1023
	b.hi	.LBB35_1814
.LBB35_1254:
	mov	w21, #115
	add	x9, x8, #1
	cmp	x8, #1023
	strb	w21, [x20, x8]
	str	x9, [x19, #1032]
	b.lo	.LBB35_1257
	mov	x0, x19
	bl	"std_io::io::buffer::Buffer::flush"
	cbz	w0, .LBB35_1863
	ldr	x9, [x19, #1032]
	cmp	x9, #1023
	b.hi	.LBB35_1814
.LBB35_1257:
	add	x8, x9, #1
	cmp	x9, #1023
	strb	w21, [x20, x9]
	str	x8, [x19, #1032]
	b.lo	.LBB35_1260
	mov	x0, x19
	bl	"std_io::io::buffer::Buffer::flush"
	cbz	w0, .LBB35_1870
	ldr	x8, [x19, #1032]
	cmp	x8, #1023
	b.hi	.LBB35_1863
.LBB35_1260:
	mov	w9, #105
	strb	w9, [x20, x8]
	cmp	x8, #1023
	add	x9, x8, #1
	str	x9, [x19, #1032]
	b.lo	.LBB35_1263
	mov	x0, x19
	bl	"std_io::io::buffer::Buffer::flush"
	cbz	w0, .LBB35_1870
	ldr	x9, [x19, #1032]
	cmp	x9, #1023
	b.hi	.LBB35_1863
.LBB35_1263:
	mov	w8, #111
	strb	w8, [x20, x9]
	cmp	x9, #1023
	add	x8, x9, #1
	str	x8, [x19, #1032]
	b.lo	.LBB35_1266
	mov	x0, x19
	bl	"std_io::io::buffer::Buffer::flush"
	cbz	w0, .LBB35_1880
	ldr	x8, [x19, #1032]
	cmp	x8, #1023
	b.hi	.LBB35_1870
.LBB35_1266:
	mov	w9, #110
	strb	w9, [x20, x8]
	cmp	x8, #1023
	add	x9, x8, #1
	str	x9, [x19, #1032]
	b.lo	.LBB35_1269
	mov	x0, x19
	bl	"std_io::io::buffer::Buffer::flush"
	cbz	w0, .LBB35_1880
	ldr	x9, [x19, #1032]
	cmp	x9, #1023
	b.hi	.LBB35_1870
.LBB35_1269:
	mov	w8, #32
	strb	w8, [x20, x9]
	cmp	x9, #1023
	add	x8, x9, #1
	str	x8, [x19, #1032]
	b.lo	.LBB35_1272
	mov	x0, x19
	bl	"std_io::io::buffer::Buffer::flush"
	cbz	w0, .LBB35_1892
	ldr	x8, [x19, #1032]
	cmp	x8, #1023
	b.hi	.LBB35_1880
.LBB35_1272:
	mov	w9, #100
	strb	w9, [x20, x8]
	cmp	x8, #1023
	add	x9, x8, #1
	str	x9, [x19, #1032]
	b.lo	.LBB35_1275
	mov	x0, x19
	bl	"std_io::io::buffer::Buffer::flush"
	cbz	w0, .LBB35_1892
	ldr	x9, [x19, #1032]
	cmp	x9, #1023
	b.hi	.LBB35_1880
.LBB35_1275:
	mov	w8, #101
	strb	w8, [x20, x9]
	cmp	x9, #1023
	add	x8, x9, #1
	str	x8, [x19, #1032]
	b.lo	.LBB35_1278
	mov	x0, x19
	bl	"std_io::io::buffer::Buffer::flush"
	cbz	w0, .LBB35_1892
	ldr	x8, [x19, #1032]
	cmp	x8, #1023
	b.hi	.LBB35_1880
.LBB35_1278:
	mov	w9, #110
	strb	w9, [x20, x8]
	cmp	x8, #1023
	add	x9, x8, #1
	str	x9, [x19, #1032]
	b.lo	.LBB35_1281
	mov	x0, x19
	bl	"std_io::io::buffer::Buffer::flush"
	cbz	w0, .LBB35_1892
	ldr	x9, [x19, #1032]
	cmp	x9, #1023
	b.hi	.LBB35_1892
.LBB35_1281:
	mov	w8, #105
	strb	w8, [x20, x9]
	cmp	x9, #1023
	add	x8, x9, #1
	str	x8, [x19, #1032]
	b.lo	.LBB35_1284
	mov	x0, x19
	bl	"std_io::io::buffer::Buffer::flush"
	cbz	w0, .LBB35_1905
	ldr	x8, [x19, #1032]
	cmp	x8, #1023
	b.hi	.LBB35_1892
.LBB35_1284:
	mov	w9, #101
	strb	w9, [x20, x8]
	cmp	x8, #1023
	add	x9, x8, #1
	str	x9, [x19, #1032]
	b.lo	.LBB35_1511
	mov	x0, x19
	bl	"std_io::io::buffer::Buffer::flush"
	cbz	w0, .LBB35_1905
	ldr	x9, [x19, #1032]
	cmp	x9, #1023
	b.hi	.LBB35_1892
	b	.LBB35_1511
.LBB35_1287:
	mov	w8, #99
	strb	w8, [x20, x9]
	cmp	x9, #1023
	add	x8, x9, #1
	str	x8, [x19, #1032]
	b.lo	.LBB35_1290
	mov	x0, x19
	bl	"std_io::io::buffer::Buffer::flush"
	cbz	w0, .LBB35_1814
	ldr	x8, [x19, #1032]
	cmp	x8, #1023
	b.hi	.LBB35_1807
.LBB35_1290:
	mov	w9, #97
	strb	w9, [x20, x8]
	cmp	x8, #1023
	add	x9, x8, #1
	str	x9, [x19, #1032]
	b.lo	.LBB35_1293
	mov	x0, x19
	bl	"std_io::io::buffer::Buffer::flush"
	cbz	w0, .LBB35_1863
	ldr	x9, [x19, #1032]
	cmp	x9, #1023
	b.hi	.LBB35_1807
.LBB35_1293:
	mov	w8, #116
	strb	w8, [x20, x9]
	cmp	x9, #1023
	add	x8, x9, #1
	str	x8, [x19, #1032]
	b.lo	.LBB35_1296
	mov	x0, x19
	bl	"std_io::io::buffer::Buffer::flush"
	cbz	w0, .LBB35_1863
	ldr	x8, [x19, #1032]
	cmp	x8, #1023
	b.hi	.LBB35_1814
.LBB35_1296:
	mov	w9, #101
	strb	w9, [x20, x8]
	cmp	x8, #1023
	add	x9, x8, #1
	str	x9, [x19, #1032]
	b.lo	.LBB35_1299
	mov	x0, x19
	bl	"std_io::io::buffer::Buffer::flush"
	cbz	w0, .LBB35_1863
	ldr	x9, [x19, #1032]
	cmp	x9, #1023
	b.hi	.LBB35_1814
.LBB35_1299:
	mov	w8, #103
	strb	w8, [x20, x9]
	cmp	x9, #1023
	add	x8, x9, #1
	str	x8, [x19, #1032]
	b.lo	.LBB35_1302
	mov	x0, x19
	bl	"std_io::io::buffer::Buffer::flush"
	cbz	w0, .LBB35_1870
	ldr	x8, [x19, #1032]
	cmp	x8, #1023
	b.hi	.LBB35_1863
.LBB35_1302:
	mov	w9, #111
	strb	w9, [x20, x8]
	cmp	x8, #1023
	add	x9, x8, #1
	str	x9, [x19, #1032]
	b.lo	.LBB35_1305
	mov	x0, x19
	bl	"std_io::io::buffer::Buffer::flush"
	cbz	w0, .LBB35_1870
	ldr	x9, [x19, #1032]
	cmp	x9, #1023
	b.hi	.LBB35_1863
.LBB35_1305:
	mov	w8, #114
	strb	w8, [x20, x9]
	cmp	x9, #1023
	add	x8, x9, #1
	str	x8, [x19, #1032]
	b.lo	.LBB35_1308
	mov	x0, x19
	bl	"std_io::io::buffer::Buffer::flush"
	cbz	w0, .LBB35_1880
	ldr	x8, [x19, #1032]
	cmp	x8, #1023
	b.hi	.LBB35_1870
.LBB35_1308:
	mov	w9, #105
	strb	w9, [x20, x8]
	cmp	x8, #1023
	add	x9, x8, #1
	str	x9, [x19, #1032]
	b.lo	.LBB35_1311
	mov	x0, x19
	bl	"std_io::io::buffer::Buffer::flush"
	cbz	w0, .LBB35_1880
	ldr	x9, [x19, #1032]
	cmp	x9, #1023
	b.hi	.LBB35_1870
.LBB35_1311:
	mov	w8, #122
	strb	w8, [x20, x9]
	cmp	x9, #1023
	add	x8, x9, #1
	str	x8, [x19, #1032]
	b.lo	.LBB35_1314
	mov	x0, x19
	bl	"std_io::io::buffer::Buffer::flush"
	cbz	w0, .LBB35_1892
	ldr	x8, [x19, #1032]
	cmp	x8, #1023
	b.hi	.LBB35_1880
.LBB35_1314:
	mov	w9, #101
	strb	w9, [x20, x8]
	cmp	x8, #1023
	add	x9, x8, #1
	str	x9, [x19, #1032]
	b.lo	.LBB35_1317
	mov	x0, x19
	bl	"std_io::io::buffer::Buffer::flush"
	cbz	w0, .LBB35_1892
	ldr	x9, [x19, #1032]
	cmp	x9, #1023
	b.hi	.LBB35_1880
.LBB35_1317:
	mov	w8, #100
	strb	w8, [x20, x9]
	cmp	x9, #1023
	add	x8, x9, #1
	str	x8, [x19, #1032]
	b.lo	.LBB35_1320
	mov	x0, x19
	bl	"std_io::io::buffer::Buffer::flush"
	cbz	w0, .LBB35_1892
	ldr	x8, [x19, #1032]
	cmp	x8, #1023
	b.hi	.LBB35_1880
.LBB35_1320:
	mov	w9, #32
	strb	w9, [x20, x8]
	cmp	x8, #1023
	add	x9, x8, #1
	str	x9, [x19, #1032]
	b.lo	.LBB35_1323
	mov	x0, x19
	bl	"std_io::io::buffer::Buffer::flush"
	cbz	w0, .LBB35_1892
	ldr	x9, [x19, #1032]
	cmp	x9, #1023
	b.hi	.LBB35_1892
.LBB35_1323:
	mov	w8, #101
	strb	w8, [x20, x9]
	cmp	x9, #1023
	add	x8, x9, #1
	str	x8, [x19, #1032]
	b.lo	.LBB35_1326
	mov	x0, x19
	bl	"std_io::io::buffer::Buffer::flush"
	cbz	w0, .LBB35_1905
	ldr	x8, [x19, #1032]
	cmp	x8, #1023
	b.hi	.LBB35_1892
.LBB35_1326:
	mov	w21, #114
	add	x9, x8, #1
	cmp	x8, #1023
	strb	w21, [x20, x8]
	str	x9, [x19, #1032]
	b.lo	.LBB35_1329
	mov	x0, x19
	bl	"std_io::io::buffer::Buffer::flush"
	cbz	w0, .LBB35_1905
	ldr	x9, [x19, #1032]
	cmp	x9, #1023
	b.hi	.LBB35_1892
.LBB35_1329:
	add	x8, x9, #1
	cmp	x9, #1023
	strb	w21, [x20, x9]
	str	x8, [x19, #1032]
	b.lo	.LBB35_1332
	mov	x0, x19
	bl	"std_io::io::buffer::Buffer::flush"
	cbz	w0, .LBB35_1905
	ldr	x8, [x19, #1032]
	cmp	x8, #1023
	b.hi	.LBB35_1905
.LBB35_1332:
	mov	w9, #111
	strb	w9, [x20, x8]
	cmp	x8, #1023
	add	x9, x8, #1
	str	x9, [x19, #1032]
	b.lo	.LBB35_925
	mov	x0, x19
	bl	"std_io::io::buffer::Buffer::flush"
	cbz	w0, .LBB35_1905
	ldr	x9, [x19, #1032]
	cmp	x9, #1023
	b.ls	.LBB35_925
	b	.LBB35_1905
.LBB35_1335:
	mov	w8, #116
	strb	w8, [x20, x9]
	cmp	x9, #1023
	add	x8, x9, #1
	str	x8, [x19, #1032]
	b.lo	.LBB35_1338
	mov	x0, x19
	bl	"std_io::io::buffer::Buffer::flush"
	cbz	w0, .LBB35_1814
	ldr	x8, [x19, #1032]
	cmp	x8, #1023
	b.hi	.LBB35_1807
.LBB35_1338:
	mov	w9, #119
	strb	w9, [x20, x8]
	cmp	x8, #1023
	add	x9, x8, #1
	str	x9, [x19, #1032]
	b.lo	.LBB35_1341
	mov	x0, x19
	bl	"std_io::io::buffer::Buffer::flush"
	cbz	w0, .LBB35_1863
	ldr	x9, [x19, #1032]
	cmp	x9, #1023
	b.hi	.LBB35_1807
.LBB35_1341:
	mov	w8, #111
	strb	w8, [x20, x9]
	cmp	x9, #1023
	add	x8, x9, #1
	str	x8, [x19, #1032]
	b.lo	.LBB35_1344
	mov	x0, x19
	bl	"std_io::io::buffer::Buffer::flush"
	cbz	w0, .LBB35_1863
	ldr	x8, [x19, #1032]
	cmp	x8, #1023
	b.hi	.LBB35_1814
.LBB35_1344:
	mov	w9, #114
	strb	w9, [x20, x8]
	cmp	x8, #1023
	add	x9, x8, #1
	str	x9, [x19, #1032]
	b.lo	.LBB35_1347
	mov	x0, x19
	bl	"std_io::io::buffer::Buffer::flush"
	cbz	w0, .LBB35_1863
	ldr	x9, [x19, #1032]
	cmp	x9, #1023
	b.hi	.LBB35_1814
.LBB35_1347:
	mov	w8, #107
	strb	w8, [x20, x9]
	cmp	x9, #1023
	add	x8, x9, #1
	str	x8, [x19, #1032]
	b.lo	.LBB35_1350
	mov	x0, x19
	bl	"std_io::io::buffer::Buffer::flush"
	cbz	w0, .LBB35_1870
	ldr	x8, [x19, #1032]
	cmp	x8, #1023
	b.hi	.LBB35_1863
.LBB35_1350:
	mov	w9, #32
	strb	w9, [x20, x8]
	cmp	x8, #1023
	add	x9, x8, #1
	str	x9, [x19, #1032]
	b.lo	.LBB35_1353
	mov	x0, x19
	bl	"std_io::io::buffer::Buffer::flush"
	cbz	w0, .LBB35_1870
	ldr	x9, [x19, #1032]
	cmp	x9, #1023
	b.hi	.LBB35_1863
.LBB35_1353:
	mov	w8, #117
	strb	w8, [x20, x9]
	cmp	x9, #1023
	add	x8, x9, #1
	str	x8, [x19, #1032]
	b.lo	.LBB35_1356
	mov	x0, x19
	bl	"std_io::io::buffer::Buffer::flush"
	cbz	w0, .LBB35_1880
	ldr	x8, [x19, #1032]
	cmp	x8, #1023
	b.hi	.LBB35_1870
.LBB35_1356:
	mov	w9, #110
	strb	w9, [x20, x8]
	cmp	x8, #1023
	add	x9, x8, #1
	str	x9, [x19, #1032]
	b.lo	.LBB35_1359
	mov	x0, x19
	bl	"std_io::io::buffer::Buffer::flush"
	cbz	w0, .LBB35_1880
	ldr	x9, [x19, #1032]
	cmp	x9, #1023
	b.hi	.LBB35_1870
.LBB35_1359:
	mov	w8, #114
	strb	w8, [x20, x9]
	cmp	x9, #1023
	add	x8, x9, #1
	str	x8, [x19, #1032]
	b.lo	.LBB35_1362
	mov	x0, x19
	bl	"std_io::io::buffer::Buffer::flush"
	cbz	w0, .LBB35_1892
	ldr	x8, [x19, #1032]
	cmp	x8, #1023
	b.hi	.LBB35_1880
.LBB35_1362:
	mov	w9, #101
	strb	w9, [x20, x8]
	cmp	x8, #1023
	add	x9, x8, #1
	str	x9, [x19, #1032]
	b.lo	.LBB35_1365
	mov	x0, x19
	bl	"std_io::io::buffer::Buffer::flush"
	cbz	w0, .LBB35_1892
	ldr	x9, [x19, #1032]
	cmp	x9, #1023
	b.hi	.LBB35_1880
.LBB35_1365:
	mov	w8, #97
	strb	w8, [x20, x9]
	cmp	x9, #1023
	add	x8, x9, #1
	str	x8, [x19, #1032]
	b.lo	.LBB35_1368
	mov	x0, x19
	bl	"std_io::io::buffer::Buffer::flush"
	cbz	w0, .LBB35_1892
	ldr	x8, [x19, #1032]
	cmp	x8, #1023
	b.hi	.LBB35_1880
.LBB35_1368:
	mov	w9, #99
	strb	w9, [x20, x8]
	cmp	x8, #1023
	add	x9, x8, #1
	str	x9, [x19, #1032]
	b.lo	.LBB35_1371
	mov	x0, x19
	bl	"std_io::io::buffer::Buffer::flush"
	cbz	w0, .LBB35_1892
	ldr	x9, [x19, #1032]
	cmp	x9, #1023
	b.hi	.LBB35_1892
.LBB35_1371:
	mov	w8, #104
	strb	w8, [x20, x9]
	cmp	x9, #1023
	add	x8, x9, #1
	str	x8, [x19, #1032]
	b.lo	.LBB35_1374
	mov	x0, x19
	bl	"std_io::io::buffer::Buffer::flush"
	cbz	w0, .LBB35_1905
	ldr	x8, [x19, #1032]
	cmp	x8, #1023
	b.hi	.LBB35_1892
.LBB35_1374:
	mov	w9, #97
	strb	w9, [x20, x8]
	cmp	x8, #1023
	add	x9, x8, #1
	str	x9, [x19, #1032]
	b.lo	.LBB35_1377
	mov	x0, x19
	bl	"std_io::io::buffer::Buffer::flush"
	cbz	w0, .LBB35_1905
	ldr	x9, [x19, #1032]
	cmp	x9, #1023
	b.hi	.LBB35_1892
.LBB35_1377:
	mov	w8, #98
	strb	w8, [x20, x9]
	cmp	x9, #1023
	add	x8, x9, #1
	str	x8, [x19, #1032]
	b.lo	.LBB35_1380
	mov	x0, x19
	bl	"std_io::io::buffer::Buffer::flush"
	cbz	w0, .LBB35_1905
	ldr	x8, [x19, #1032]
	cmp	x8, #1023
	b.hi	.LBB35_1905
.LBB35_1380:
	mov	w9, #108
	strb	w9, [x20, x8]
	cmp	x8, #1023
	add	x9, x8, #1
	str	x9, [x19, #1032]
	b.lo	.LBB35_863
	mov	x0, x19
	bl	"std_io::io::buffer::Buffer::flush"
	cbz	w0, .LBB35_1905
	ldr	x9, [x19, #1032]
	cmp	x9, #1023
	b.hi	.LBB35_1905
	b	.LBB35_863
.LBB35_1383:
	mov	w8, #118
	strb	w8, [x20, x9]
	cmp	x9, #1023
	add	x8, x9, #1
	str	x8, [x19, #1032]
	b.lo	.LBB35_1386
	mov	x0, x19
	bl	"std_io::io::buffer::Buffer::flush"
	cbz	w0, .LBB35_1814
	ldr	x8, [x19, #1032]
	cmp	x8, #1023
	b.hi	.LBB35_1807
.LBB35_1386:
	mov	w9, #97
	strb	w9, [x20, x8]
	cmp	x8, #1023
	add	x9, x8, #1
	str	x9, [x19, #1032]
	b.lo	.LBB35_1389
	mov	x0, x19
	bl	"std_io::io::buffer::Buffer::flush"
	cbz	w0, .LBB35_1863
	ldr	x9, [x19, #1032]
	cmp	x9, #1023
	b.hi	.LBB35_1807
.LBB35_1389:
	mov	w8, #108
	strb	w8, [x20, x9]
	cmp	x9, #1023
	add	x8, x9, #1
	str	x8, [x19, #1032]
	b.lo	.LBB35_1392
	mov	x0, x19
	bl	"std_io::io::buffer::Buffer::flush"
	cbz	w0, .LBB35_1863
	ldr	x8, [x19, #1032]
	cmp	x8, #1023
	b.hi	.LBB35_1814
.LBB35_1392:
	mov	w9, #105
	strb	w9, [x20, x8]
	cmp	x8, #1023
	add	x9, x8, #1
	str	x9, [x19, #1032]
	b.lo	.LBB35_1395
	mov	x0, x19
	bl	"std_io::io::buffer::Buffer::flush"
	cbz	w0, .LBB35_1863
	ldr	x9, [x19, #1032]
	cmp	x9, #1023
	b.hi	.LBB35_1814
.LBB35_1395:
	mov	w8, #100
	strb	w8, [x20, x9]
	cmp	x9, #1023
	add	x8, x9, #1
	str	x8, [x19, #1032]
	b.lo	.LBB35_1398
	mov	x0, x19
	bl	"std_io::io::buffer::Buffer::flush"
	cbz	w0, .LBB35_1870
	ldr	x8, [x19, #1032]
	cmp	x8, #1023
	b.hi	.LBB35_1863
.LBB35_1398:
	mov	w9, #32
	strb	w9, [x20, x8]
	cmp	x8, #1023
	add	x9, x8, #1
	str	x9, [x19, #1032]
	b.lo	.LBB35_1401
	mov	x0, x19
	bl	"std_io::io::buffer::Buffer::flush"
	cbz	w0, .LBB35_1870
	ldr	x9, [x19, #1032]
	cmp	x9, #1023
	b.hi	.LBB35_1863
.LBB35_1401:
	mov	w8, #100
	strb	w8, [x20, x9]
	cmp	x9, #1023
	add	x8, x9, #1
	str	x8, [x19, #1032]
	b.lo	.LBB35_1404
	mov	x0, x19
	bl	"std_io::io::buffer::Buffer::flush"
	cbz	w0, .LBB35_1880
	ldr	x8, [x19, #1032]
	cmp	x8, #1023
	b.hi	.LBB35_1870
.LBB35_1404:
	mov	w9, #97
	strb	w9, [x20, x8]
	cmp	x8, #1023
	add	x9, x8, #1
	str	x9, [x19, #1032]
	b.lo	.LBB35_1407
	mov	x0, x19
	bl	"std_io::io::buffer::Buffer::flush"
	cbz	w0, .LBB35_1880
	ldr	x9, [x19, #1032]
	cmp	x9, #1023
	b.hi	.LBB35_1870
.LBB35_1407:
	mov	w8, #116
	strb	w8, [x20, x9]
	cmp	x9, #1023
	add	x8, x9, #1
	str	x8, [x19, #1032]
	b.lo	.LBB35_1410
	mov	x0, x19
	bl	"std_io::io::buffer::Buffer::flush"
	cbz	w0, .LBB35_1892
	ldr	x8, [x19, #1032]
	cmp	x8, #1023
	b.hi	.LBB35_1880
.LBB35_1410:
	mov	w0, wzr
	mov	w9, #97
	b	.LBB35_1882
.LBB35_1411:
	mov	w8, #101
	strb	w8, [x20, x9]
	cmp	x9, #1023
	add	x8, x9, #1
	str	x8, [x19, #1032]
	b.lo	.LBB35_1414
	mov	x0, x19
	bl	"std_io::io::buffer::Buffer::flush"
	cbz	w0, .LBB35_1814
	ldr	x8, [x19, #1032]
	cmp	x8, #1023
	b.hi	.LBB35_1807
.LBB35_1414:
	mov	w9, #114
	strb	w9, [x20, x8]
	cmp	x8, #1023
	add	x9, x8, #1
	str	x9, [x19, #1032]
	b.lo	.LBB35_1417
	mov	x0, x19
	bl	"std_io::io::buffer::Buffer::flush"
	cbz	w0, .LBB35_1863
	ldr	x9, [x19, #1032]
	cmp	x9, #1023
	b.hi	.LBB35_1807
.LBB35_1417:
	mov	w8, #97
	strb	w8, [x20, x9]
	cmp	x9, #1023
	add	x8, x9, #1
	str	x8, [x19, #1032]
	b.lo	.LBB35_1420
	mov	x0, x19
	bl	"std_io::io::buffer::Buffer::flush"
	cbz	w0, .LBB35_1863
	ldr	x8, [x19, #1032]
	cmp	x8, #1023
	b.hi	.LBB35_1814
.LBB35_1420:
	mov	w9, #116
	strb	w9, [x20, x8]
	cmp	x8, #1023
	add	x9, x8, #1
	str	x9, [x19, #1032]
	b.lo	.LBB35_1423
	mov	x0, x19
	bl	"std_io::io::buffer::Buffer::flush"
	cbz	w0, .LBB35_1863
	ldr	x9, [x19, #1032]
	cmp	x9, #1023
	b.hi	.LBB35_1814
.LBB35_1423:
	mov	w8, #105
	strb	w8, [x20, x9]
	cmp	x9, #1023
	add	x8, x9, #1
	str	x8, [x19, #1032]
	b.lo	.LBB35_1426
	mov	x0, x19
	bl	"std_io::io::buffer::Buffer::flush"
	cbz	w0, .LBB35_1870
	ldr	x8, [x19, #1032]
	cmp	x8, #1023
	b.hi	.LBB35_1863
.LBB35_1426:
	mov	w9, #111
	strb	w9, [x20, x8]
	cmp	x8, #1023
	add	x9, x8, #1
	str	x9, [x19, #1032]
	b.lo	.LBB35_1429
	mov	x0, x19
	bl	"std_io::io::buffer::Buffer::flush"
	cbz	w0, .LBB35_1870
	ldr	x9, [x19, #1032]
	cmp	x9, #1023
	b.hi	.LBB35_1863
.LBB35_1429:
	mov	w8, #110
	strb	w8, [x20, x9]
	cmp	x9, #1023
	add	x8, x9, #1
	str	x8, [x19, #1032]
	b.lo	.LBB35_1432
	mov	x0, x19
	bl	"std_io::io::buffer::Buffer::flush"
	cbz	w0, .LBB35_1880
	ldr	x8, [x19, #1032]
	cmp	x8, #1023
	b.hi	.LBB35_1870
.LBB35_1432:
	mov	w9, #32
	strb	w9, [x20, x8]
	cmp	x8, #1023
	add	x9, x8, #1
	str	x9, [x19, #1032]
	b.lo	.LBB35_1435
	mov	x0, x19
	bl	"std_io::io::buffer::Buffer::flush"
	cbz	w0, .LBB35_1880
	ldr	x9, [x19, #1032]
	cmp	x9, #1023
	b.hi	.LBB35_1870
.LBB35_1435:
	mov	w8, #119
	strb	w8, [x20, x9]
	cmp	x9, #1023
	add	x8, x9, #1
	str	x8, [x19, #1032]
	b.lo	.LBB35_1438
	mov	x0, x19
	bl	"std_io::io::buffer::Buffer::flush"
	cbz	w0, .LBB35_1892
	ldr	x8, [x19, #1032]
	cmp	x8, #1023
	b.hi	.LBB35_1880
.LBB35_1438:
	mov	w9, #111
	strb	w9, [x20, x8]
	cmp	x8, #1023
	add	x9, x8, #1
	str	x9, [x19, #1032]
	b.lo	.LBB35_1441
	mov	x0, x19
	bl	"std_io::io::buffer::Buffer::flush"
	cbz	w0, .LBB35_1892
	ldr	x9, [x19, #1032]
	cmp	x9, #1023
	b.hi	.LBB35_1880
.LBB35_1441:
	mov	w8, #117
	strb	w8, [x20, x9]
	cmp	x9, #1023
	add	x8, x9, #1
	str	x8, [x19, #1032]
	b.lo	.LBB35_1444
	mov	x0, x19
	bl	"std_io::io::buffer::Buffer::flush"
	cbz	w0, .LBB35_1892
	ldr	x8, [x19, #1032]
	cmp	x8, #1023
	b.hi	.LBB35_1880
.LBB35_1444:
	mov	w9, #108
	strb	w9, [x20, x8]
	cmp	x8, #1023
	add	x9, x8, #1
	str	x9, [x19, #1032]
	b.lo	.LBB35_1447
	mov	x0, x19
	bl	"std_io::io::buffer::Buffer::flush"
	cbz	w0, .LBB35_1892
	ldr	x9, [x19, #1032]
	cmp	x9, #1023
	b.hi	.LBB35_1892
.LBB35_1447:
	mov	w8, #100
	strb	w8, [x20, x9]
	cmp	x9, #1023
	add	x8, x9, #1
	str	x8, [x19, #1032]
	b.lo	.LBB35_1450
	mov	x0, x19
	bl	"std_io::io::buffer::Buffer::flush"
	cbz	w0, .LBB35_1905
	ldr	x8, [x19, #1032]
	cmp	x8, #1023
	b.hi	.LBB35_1892
.LBB35_1450:
	mov	w9, #32
	strb	w9, [x20, x8]
	cmp	x8, #1023
	add	x9, x8, #1
	str	x9, [x19, #1032]
	b.lo	.LBB35_1453
	mov	x0, x19
	bl	"std_io::io::buffer::Buffer::flush"
	cbz	w0, .LBB35_1905
	ldr	x9, [x19, #1032]
	cmp	x9, #1023
	b.hi	.LBB35_1892
.LBB35_1453:
	mov	w8, #98
	strb	w8, [x20, x9]
	cmp	x9, #1023
	add	x8, x9, #1
	str	x8, [x19, #1032]
	b.lo	.LBB35_1456
	mov	x0, x19
	bl	"std_io::io::buffer::Buffer::flush"
	cbz	w0, .LBB35_1905
	ldr	x8, [x19, #1032]
	cmp	x8, #1023
	b.hi	.LBB35_1905
.LBB35_1456:
	mov	w9, #108
	strb	w9, [x20, x8]
	cmp	x8, #1023
	add	x9, x8, #1
	str	x9, [x19, #1032]
	b.lo	.LBB35_1459
	mov	x0, x19
	bl	"std_io::io::buffer::Buffer::flush"
	cbz	w0, .LBB35_1905
	ldr	x9, [x19, #1032]
	cmp	x9, #1023
	b.hi	.LBB35_1905
.LBB35_1459:
	mov	w8, #111
	strb	w8, [x20, x9]
	cmp	x9, #1023
	add	x8, x9, #1
	str	x8, [x19, #1032]
	b.lo	.LBB35_1462
	mov	x0, x19
	bl	"std_io::io::buffer::Buffer::flush"
	cbz	w0, .LBB35_1905
	ldr	x8, [x19, #1032]
	cmp	x8, #1023
	b.hi	.LBB35_1905
.LBB35_1462:
	mov	w9, #99
	strb	w9, [x20, x8]
	cmp	x8, #1023
	add	x9, x8, #1
	str	x9, [x19, #1032]
	b.lo	.LBB35_1465
	mov	x0, x19
	bl	"std_io::io::buffer::Buffer::flush"
	cbz	w0, .LBB35_1905
	ldr	x9, [x19, #1032]
	cmp	x9, #1023
	b.hi	.LBB35_1905
.LBB35_1465:
	mov	w0, wzr
	mov	w8, #107
	b	.LBB35_1800
.LBB35_1466:
	mov	w21, #110
	add	x10, x9, #1
	cmp	x9, #1023
	strb	w21, [x20, x9]
	str	x10, [x19, #1032]
	b.lo	.LBB35_1469
	mov	x0, x19
	bl	"std_io::io::buffer::Buffer::flush"
	cbz	w0, .LBB35_1814
	ldr	x10, [x19, #1032]
	cmp	x10, #1023
	b.hi	.LBB35_1807
.LBB35_1469:
	add	x8, x10, #1
	cmp	x10, #1023
	strb	w21, [x20, x10]
	str	x8, [x19, #1032]
	b.lo	.LBB35_1472
	mov	x0, x19
	bl	"std_io::io::buffer::Buffer::flush"
	cbz	w0, .LBB35_1863
	ldr	x8, [x19, #1032]
	cmp	x8, #1023
	b.hi	.LBB35_1807
.LBB35_1472:
	mov	w9, #101
	strb	w9, [x20, x8]
	cmp	x8, #1023
	add	x9, x8, #1
	str	x9, [x19, #1032]
	b.lo	.LBB35_1475
	mov	x0, x19
	bl	"std_io::io::buffer::Buffer::flush"
	cbz	w0, .LBB35_1863
	ldr	x9, [x19, #1032]
	cmp	x9, #1023
	b.hi	.LBB35_1814
.LBB35_1475:
	mov	w8, #99
	strb	w8, [x20, x9]
	cmp	x9, #1023
	add	x8, x9, #1
	str	x8, [x19, #1032]
	b.lo	.LBB35_1478
	mov	x0, x19
	bl	"std_io::io::buffer::Buffer::flush"
	cbz	w0, .LBB35_1863
	ldr	x8, [x19, #1032]
	cmp	x8, #1023
	b.hi	.LBB35_1814
.LBB35_1478:
	mov	w9, #116
	strb	w9, [x20, x8]
	cmp	x8, #1023
	add	x9, x8, #1
	str	x9, [x19, #1032]
	b.lo	.LBB35_1481
	mov	x0, x19
	bl	"std_io::io::buffer::Buffer::flush"
	cbz	w0, .LBB35_1870
	ldr	x9, [x19, #1032]
	cmp	x9, #1023
	b.hi	.LBB35_1863
.LBB35_1481:
	mov	w8, #105
	strb	w8, [x20, x9]
	cmp	x9, #1023
	add	x8, x9, #1
	str	x8, [x19, #1032]
	b.lo	.LBB35_1484
	mov	x0, x19
	bl	"std_io::io::buffer::Buffer::flush"
	cbz	w0, .LBB35_1870
	ldr	x8, [x19, #1032]
	cmp	x8, #1023
	b.hi	.LBB35_1863
.LBB35_1484:
	mov	w9, #111
	strb	w9, [x20, x8]
	cmp	x8, #1023
	add	x9, x8, #1
	str	x9, [x19, #1032]
	b.lo	.LBB35_1487
	mov	x0, x19
	bl	"std_io::io::buffer::Buffer::flush"
	cbz	w0, .LBB35_1880
	ldr	x9, [x19, #1032]
	cmp	x9, #1023
	b.hi	.LBB35_1870
.LBB35_1487:
	mov	w8, #110
	strb	w8, [x20, x9]
	cmp	x9, #1023
	add	x8, x9, #1
	str	x8, [x19, #1032]
	b.lo	.LBB35_1490
	mov	x0, x19
	bl	"std_io::io::buffer::Buffer::flush"
	cbz	w0, .LBB35_1880
	ldr	x8, [x19, #1032]
	cmp	x8, #1023
	b.hi	.LBB35_1870
.LBB35_1490:
	mov	w9, #32
	strb	w9, [x20, x8]
	cmp	x8, #1023
	add	x9, x8, #1
	str	x9, [x19, #1032]
	b.lo	.LBB35_1493
	mov	x0, x19
	bl	"std_io::io::buffer::Buffer::flush"
	cbz	w0, .LBB35_1892
	ldr	x9, [x19, #1032]
	cmp	x9, #1023
	b.hi	.LBB35_1880
.LBB35_1493:
	mov	w8, #97
	strb	w8, [x20, x9]
	cmp	x9, #1023
	add	x8, x9, #1
	str	x8, [x19, #1032]
	b.lo	.LBB35_1496
	mov	x0, x19
	bl	"std_io::io::buffer::Buffer::flush"
	cbz	w0, .LBB35_1892
	ldr	x8, [x19, #1032]
	cmp	x8, #1023
	b.hi	.LBB35_1880
.LBB35_1496:
	mov	w9, #98
	strb	w9, [x20, x8]
	cmp	x8, #1023
	add	x9, x8, #1
	str	x9, [x19, #1032]
	b.lo	.LBB35_1499
	mov	x0, x19
	bl	"std_io::io::buffer::Buffer::flush"
	cbz	w0, .LBB35_1892
	ldr	x9, [x19, #1032]
	cmp	x9, #1023
	b.hi	.LBB35_1880
.LBB35_1499:
	mov	w8, #111
	strb	w8, [x20, x9]
	cmp	x9, #1023
	add	x8, x9, #1
	str	x8, [x19, #1032]
	b.lo	.LBB35_1502
	mov	x0, x19
	bl	"std_io::io::buffer::Buffer::flush"
	cbz	w0, .LBB35_1892
	ldr	x8, [x19, #1032]
	cmp	x8, #1023
	b.hi	.LBB35_1892
.LBB35_1502:
	mov	w9, #114
	strb	w9, [x20, x8]
	cmp	x8, #1023
	add	x9, x8, #1
	str	x9, [x19, #1032]
	b.lo	.LBB35_1505
	mov	x0, x19
	bl	"std_io::io::buffer::Buffer::flush"
	cbz	w0, .LBB35_1905
	ldr	x9, [x19, #1032]
	cmp	x9, #1023
	b.hi	.LBB35_1892
.LBB35_1505:
	mov	w8, #116
	strb	w8, [x20, x9]
	cmp	x9, #1023
	add	x8, x9, #1
	str	x8, [x19, #1032]
	b.lo	.LBB35_1508
.LBB35_1506:
	mov	x0, x19
	bl	"std_io::io::buffer::Buffer::flush"
	cbz	w0, .LBB35_1905
	ldr	x8, [x19, #1032]
	cmp	x8, #1023
	b.hi	.LBB35_1892
.LBB35_1508:
	mov	w9, #101
	strb	w9, [x20, x8]
	cmp	x8, #1023
	add	x9, x8, #1
	str	x9, [x19, #1032]
	b.lo	.LBB35_1511
	mov	x0, x19
	bl	"std_io::io::buffer::Buffer::flush"
	cbz	w0, .LBB35_1905
	ldr	x9, [x19, #1032]
	cmp	x9, #1023
	b.hi	.LBB35_1905
.LBB35_1511:
	mov	w0, wzr
	mov	w8, #100
	b	.LBB35_1800
.LBB35_1512:
	mov	w8, #116
	strb	w8, [x20, x9]
	cmp	x9, #1023
	add	x8, x9, #1
	str	x8, [x19, #1032]
	b.lo	.LBB35_1515
	mov	x0, x19
	bl	"std_io::io::buffer::Buffer::flush"
	cbz	w0, .LBB35_1814
	ldr	x8, [x19, #1032]
	cmp	x8, #1023
	b.hi	.LBB35_1807
.LBB35_1515:
	mov	w9, #119
	strb	w9, [x20, x8]
	cmp	x8, #1023
	add	x9, x8, #1
	str	x9, [x19, #1032]
	b.lo	.LBB35_1518
	mov	x0, x19
	bl	"std_io::io::buffer::Buffer::flush"
	cbz	w0, .LBB35_1863
	ldr	x9, [x19, #1032]
	cmp	x9, #1023
	b.hi	.LBB35_1807
.LBB35_1518:
	mov	w8, #111
	strb	w8, [x20, x9]
	cmp	x9, #1023
	add	x8, x9, #1
	str	x8, [x19, #1032]
	b.lo	.LBB35_1521
	mov	x0, x19
	bl	"std_io::io::buffer::Buffer::flush"
	cbz	w0, .LBB35_1863
	ldr	x8, [x19, #1032]
	cmp	x8, #1023
	b.hi	.LBB35_1814
.LBB35_1521:
	mov	w9, #114
	strb	w9, [x20, x8]
	cmp	x8, #1023
	add	x9, x8, #1
	str	x9, [x19, #1032]
	b.lo	.LBB35_1524
	mov	x0, x19
	bl	"std_io::io::buffer::Buffer::flush"
	cbz	w0, .LBB35_1870
	ldr	x9, [x19, #1032]
	cmp	x9, #1023
	b.hi	.LBB35_1814
.LBB35_1524:
	mov	w8, #107
	strb	w8, [x20, x9]
	cmp	x9, #1023
	add	x8, x9, #1
	str	x8, [x19, #1032]
	b.lo	.LBB35_1527
	mov	x0, x19
	bl	"std_io::io::buffer::Buffer::flush"
	cbz	w0, .LBB35_1870
	ldr	x8, [x19, #1032]
	cmp	x8, #1023
	b.hi	.LBB35_1863
.LBB35_1527:
	mov	w9, #32
	strb	w9, [x20, x8]
	cmp	x8, #1023
	add	x9, x8, #1
	str	x9, [x19, #1032]
	b.lo	.LBB35_1530
	mov	x0, x19
	bl	"std_io::io::buffer::Buffer::flush"
	cbz	w0, .LBB35_1870
	ldr	x9, [x19, #1032]
	cmp	x9, #1023
	b.hi	.LBB35_1863
.LBB35_1530:
	mov	w8, #100
	strb	w8, [x20, x9]
	cmp	x9, #1023
	add	x8, x9, #1
	str	x8, [x19, #1032]
	b.lo	.LBB35_1533
	mov	x0, x19
	bl	"std_io::io::buffer::Buffer::flush"
	cbz	w0, .LBB35_1880
	ldr	x8, [x19, #1032]
	cmp	x8, #1023
	b.hi	.LBB35_1870
.LBB35_1533:
	mov	w9, #111
	strb	w9, [x20, x8]
	cmp	x8, #1023
	add	x9, x8, #1
	str	x9, [x19, #1032]
	b.lo	.LBB35_1536
	mov	x0, x19
	bl	"std_io::io::buffer::Buffer::flush"
	cbz	w0, .LBB35_1880
	ldr	x9, [x19, #1032]
	cmp	x9, #1023
	b.hi	.LBB35_1870
.LBB35_1536:
	mov	w8, #119
	strb	w8, [x20, x9]
	cmp	x9, #1023
	add	x8, x9, #1
	str	x8, [x19, #1032]
	b.lo	.LBB35_1539
	mov	x0, x19
	bl	"std_io::io::buffer::Buffer::flush"
	cbz	w0, .LBB35_1892
	ldr	x8, [x19, #1032]
	cmp	x8, #1023
	b.hi	.LBB35_1880
.LBB35_1539:
	mov	w0, wzr
	mov	w9, #110
	b	.LBB35_1882
.LBB35_1540:
	add	x8, x9, #1
	cmp	x9, #1023
	strb	w21, [x20, x9]
	str	x8, [x19, #1032]
	b.lo	.LBB35_1543
	mov	x0, x19
	bl	"std_io::io::buffer::Buffer::flush"
	cbz	w0, .LBB35_1814
	ldr	x8, [x19, #1032]
	cmp	x8, #1023
	b.hi	.LBB35_1807
.LBB35_1543:
	mov	w9, #114
	strb	w9, [x20, x8]
	cmp	x8, #1023
	add	x9, x8, #1
	str	x9, [x19, #1032]
	b.lo	.LBB35_1546
	mov	x0, x19
	bl	"std_io::io::buffer::Buffer::flush"
	cbz	w0, .LBB35_1863
	ldr	x9, [x19, #1032]
	cmp	x9, #1023
	b.hi	.LBB35_1807
.LBB35_1546:
	mov	w8, #101
	strb	w8, [x20, x9]
	cmp	x9, #1023
	add	x8, x9, #1
	str	x8, [x19, #1032]
	b.lo	.LBB35_1549
	mov	x0, x19
	bl	"std_io::io::buffer::Buffer::flush"
	cbz	w0, .LBB35_1863
	ldr	x8, [x19, #1032]
	cmp	x8, #1023
	b.hi	.LBB35_1814
.LBB35_1549:
	mov	w21, #115
	add	x9, x8, #1
	cmp	x8, #1023
	strb	w21, [x20, x8]
	str	x9, [x19, #1032]
	b.lo	.LBB35_1552
	mov	x0, x19
	bl	"std_io::io::buffer::Buffer::flush"
	cbz	w0, .LBB35_1870
	ldr	x9, [x19, #1032]
	cmp	x9, #1023
	b.hi	.LBB35_1814
.LBB35_1552:
	add	x8, x9, #1
	cmp	x9, #1023
	strb	w21, [x20, x9]
	str	x8, [x19, #1032]
	b.lo	.LBB35_1555
	mov	x0, x19
	bl	"std_io::io::buffer::Buffer::flush"
	cbz	w0, .LBB35_1870
	ldr	x8, [x19, #1032]
	cmp	x8, #1023
	b.hi	.LBB35_1863
.LBB35_1555:
	mov	w9, #32
	strb	w9, [x20, x8]
	cmp	x8, #1023
	add	x9, x8, #1
	str	x9, [x19, #1032]
	b.lo	.LBB35_1558
	mov	x0, x19
	bl	"std_io::io::buffer::Buffer::flush"
	cbz	w0, .LBB35_1870
	ldr	x9, [x19, #1032]
	cmp	x9, #1023
	b.hi	.LBB35_1863
.LBB35_1558:
	mov	w8, #105
	strb	w8, [x20, x9]
	cmp	x9, #1023
	add	x8, x9, #1
	str	x8, [x19, #1032]
	b.lo	.LBB35_1561
	mov	x0, x19
	bl	"std_io::io::buffer::Buffer::flush"
	cbz	w0, .LBB35_1880
	ldr	x8, [x19, #1032]
	cmp	x8, #1023
	b.hi	.LBB35_1870
.LBB35_1561:
	mov	w9, #110
	strb	w9, [x20, x8]
	cmp	x8, #1023
	add	x9, x8, #1
	str	x9, [x19, #1032]
	b.lo	.LBB35_1564
	mov	x0, x19
	bl	"std_io::io::buffer::Buffer::flush"
	cbz	w0, .LBB35_1880
	ldr	x9, [x19, #1032]
	cmp	x9, #1023
	b.hi	.LBB35_1870
.LBB35_1564:
	mov	w8, #32
	strb	w8, [x20, x9]
	cmp	x9, #1023
	add	x8, x9, #1
	str	x8, [x19, #1032]
	b.lo	.LBB35_1567
	mov	x0, x19
	bl	"std_io::io::buffer::Buffer::flush"
	cbz	w0, .LBB35_1892
	ldr	x8, [x19, #1032]
	cmp	x8, #1023
	b.hi	.LBB35_1880
.LBB35_1567:
	mov	w9, #117
	strb	w9, [x20, x8]
	cmp	x8, #1023
	add	x9, x8, #1
	str	x9, [x19, #1032]
	b.lo	.LBB35_1570
	mov	x0, x19
	bl	"std_io::io::buffer::Buffer::flush"
	cbz	w0, .LBB35_1892
	ldr	x9, [x19, #1032]
	cmp	x9, #1023
	b.hi	.LBB35_1880
.LBB35_1570:
	mov	w8, #115
	strb	w8, [x20, x9]
	cmp	x9, #1023
	add	x8, x9, #1
	str	x8, [x19, #1032]
	b.lo	.LBB35_1573
	mov	x0, x19
	bl	"std_io::io::buffer::Buffer::flush"
	cbz	w0, .LBB35_1892
	ldr	x8, [x19, #1032]
	cmp	x8, #1023
	b.hi	.LBB35_1880
.LBB35_1573:
	mov	w0, wzr
	mov	w9, #101
	b	.LBB35_1882
.LBB35_1574:
	mov	w8, #97
	strb	w8, [x20, x9]
	cmp	x9, #1023
	add	x8, x9, #1
	str	x8, [x19, #1032]
	b.lo	.LBB35_1577
	mov	x0, x19
	bl	"std_io::io::buffer::Buffer::flush"
	cbz	w0, .LBB35_1814
	ldr	x8, [x19, #1032]
	cmp	x8, #1023
	b.hi	.LBB35_1807
.LBB35_1577:
	mov	w9, #100
	strb	w9, [x20, x8]
	cmp	x8, #1023
	add	x9, x8, #1
	str	x9, [x19, #1032]
	b.lo	.LBB35_1580
	mov	x0, x19
	bl	"std_io::io::buffer::Buffer::flush"
	cbz	w0, .LBB35_1863
	ldr	x9, [x19, #1032]
	cmp	x9, #1023
	b.hi	.LBB35_1807
.LBB35_1580:
	mov	w8, #108
	strb	w8, [x20, x9]
	cmp	x9, #1023
	add	x8, x9, #1
	str	x8, [x19, #1032]
	b.lo	.LBB35_1583
	mov	x0, x19
	bl	"std_io::io::buffer::Buffer::flush"
	cbz	w0, .LBB35_1863
	ldr	x8, [x19, #1032]
	cmp	x8, #1023
	b.hi	.LBB35_1814
.LBB35_1583:
	mov	w9, #111
	strb	w9, [x20, x8]
	cmp	x8, #1023
	add	x9, x8, #1
	str	x9, [x19, #1032]
	b.lo	.LBB35_1586
	mov	x0, x19
	bl	"std_io::io::buffer::Buffer::flush"
	cbz	w0, .LBB35_1870
	ldr	x9, [x19, #1032]
	cmp	x9, #1023
	b.hi	.LBB35_1814
.LBB35_1586:
	mov	w8, #99
	strb	w8, [x20, x9]
	cmp	x9, #1023
	add	x8, x9, #1
	str	x8, [x19, #1032]
	b.lo	.LBB35_1589
	mov	x0, x19
	bl	"std_io::io::buffer::Buffer::flush"
	cbz	w0, .LBB35_1870
	ldr	x8, [x19, #1032]
	cmp	x8, #1023
	b.hi	.LBB35_1863
.LBB35_1589:
	mov	w0, wzr
	mov	w9, #107
	b	.LBB35_1882
.LBB35_1590:
	add	x8, x9, #1
	cmp	x9, #1023
	strb	w21, [x20, x9]
	str	x8, [x19, #1032]
	b.lo	.LBB35_1593
	mov	x0, x19
	bl	"std_io::io::buffer::Buffer::flush"
	cbz	w0, .LBB35_1814
	ldr	x8, [x19, #1032]
	cmp	x8, #1023
	b.hi	.LBB35_1807
.LBB35_1593:
	mov	w9, #32
	strb	w9, [x20, x8]
	cmp	x8, #1023
	add	x9, x8, #1
	str	x9, [x19, #1032]
	b.lo	.LBB35_1596
	mov	x0, x19
	bl	"std_io::io::buffer::Buffer::flush"
	cbz	w0, .LBB35_1863
	ldr	x9, [x19, #1032]
	cmp	x9, #1023
	b.hi	.LBB35_1807
.LBB35_1596:
	mov	w8, #109
	strb	w8, [x20, x9]
	cmp	x9, #1023
	add	x8, x9, #1
	str	x8, [x19, #1032]
	b.lo	.LBB35_1599
	mov	x0, x19
	bl	"std_io::io::buffer::Buffer::flush"
	cbz	w0, .LBB35_1863
	ldr	x8, [x19, #1032]
	cmp	x8, #1023
	b.hi	.LBB35_1814
.LBB35_1599:
	mov	w9, #97
	strb	w9, [x20, x8]
	cmp	x8, #1023
	add	x9, x8, #1
	str	x9, [x19, #1032]
	b.lo	.LBB35_1602
	mov	x0, x19
	bl	"std_io::io::buffer::Buffer::flush"
	cbz	w0, .LBB35_1870
	ldr	x9, [x19, #1032]
	cmp	x9, #1023
	b.hi	.LBB35_1814
.LBB35_1602:
	mov	w8, #110
	strb	w8, [x20, x9]
	cmp	x9, #1023
	add	x8, x9, #1
	str	x8, [x19, #1032]
	b.lo	.LBB35_1605
	mov	x0, x19
	bl	"std_io::io::buffer::Buffer::flush"
	cbz	w0, .LBB35_1870
	ldr	x8, [x19, #1032]
	cmp	x8, #1023
	b.hi	.LBB35_1863
.LBB35_1605:
	mov	w9, #121
	strb	w9, [x20, x8]
	cmp	x8, #1023
	add	x9, x8, #1
	str	x9, [x19, #1032]
	b.lo	.LBB35_1608
	mov	x0, x19
	bl	"std_io::io::buffer::Buffer::flush"
	cbz	w0, .LBB35_1870
	ldr	x9, [x19, #1032]
	cmp	x9, #1023
	b.hi	.LBB35_1863
.LBB35_1608:
	mov	w8, #32
	strb	w8, [x20, x9]
	cmp	x9, #1023
	add	x8, x9, #1
	str	x8, [x19, #1032]
	b.lo	.LBB35_1611
	mov	x0, x19
	bl	"std_io::io::buffer::Buffer::flush"
	cbz	w0, .LBB35_1880
	ldr	x8, [x19, #1032]
	cmp	x8, #1023
	b.hi	.LBB35_1870
.LBB35_1611:
	mov	w9, #108
	strb	w9, [x20, x8]
	cmp	x8, #1023
	add	x9, x8, #1
	str	x9, [x19, #1032]
	b.lo	.LBB35_1614
	mov	x0, x19
	bl	"std_io::io::buffer::Buffer::flush"
	cbz	w0, .LBB35_1880
	ldr	x9, [x19, #1032]
	cmp	x9, #1023
	b.hi	.LBB35_1870
.LBB35_1614:
	mov	w8, #105
	strb	w8, [x20, x9]
	cmp	x9, #1023
	add	x8, x9, #1
	str	x8, [x19, #1032]
	b.lo	.LBB35_1617
	mov	x0, x19
	bl	"std_io::io::buffer::Buffer::flush"
	cbz	w0, .LBB35_1892
	ldr	x8, [x19, #1032]
	cmp	x8, #1023
	b.hi	.LBB35_1880
.LBB35_1617:
	mov	w9, #110
	strb	w9, [x20, x8]
	cmp	x8, #1023
	add	x9, x8, #1
	str	x9, [x19, #1032]
	b.lo	.LBB35_1620
	mov	x0, x19
	bl	"std_io::io::buffer::Buffer::flush"
	cbz	w0, .LBB35_1892
	ldr	x9, [x19, #1032]
	cmp	x9, #1023
	b.hi	.LBB35_1880
.LBB35_1620:
	mov	w8, #107
	strb	w8, [x20, x9]
	cmp	x9, #1023
	add	x8, x9, #1
	str	x8, [x19, #1032]
	b.lo	.LBB35_1623
	mov	x0, x19
	bl	"std_io::io::buffer::Buffer::flush"
	cbz	w0, .LBB35_1892
	ldr	x8, [x19, #1032]
	cmp	x8, #1023
	b.hi	.LBB35_1880
.LBB35_1623:
	mov	w0, wzr
	mov	w9, #115
	b	.LBB35_1882
.LBB35_1624:
	mov	w8, #109
	strb	w8, [x20, x9]
	cmp	x9, #1023
	add	x8, x9, #1
	str	x8, [x19, #1032]
	b.lo	.LBB35_1627
	mov	x0, x19
	bl	"std_io::io::buffer::Buffer::flush"
	cbz	w0, .LBB35_1814
	ldr	x8, [x19, #1032]
	cmp	x8, #1023
	b.hi	.LBB35_1807
.LBB35_1627:
	mov	w9, #101
	strb	w9, [x20, x8]
	cmp	x8, #1023
	add	x9, x8, #1
	str	x9, [x19, #1032]
	b.lo	.LBB35_1630
	mov	x0, x19
	bl	"std_io::io::buffer::Buffer::flush"
	cbz	w0, .LBB35_1863
	ldr	x9, [x19, #1032]
	cmp	x9, #1023
	b.hi	.LBB35_1807
.LBB35_1630:
	mov	w8, #100
	strb	w8, [x20, x9]
	cmp	x9, #1023
	add	x8, x9, #1
	str	x8, [x19, #1032]
	b.lo	.LBB35_1633
	mov	x0, x19
	bl	"std_io::io::buffer::Buffer::flush"
	cbz	w0, .LBB35_1863
	ldr	x8, [x19, #1032]
	cmp	x8, #1023
	b.hi	.LBB35_1814
.LBB35_1633:
	mov	w9, #32
	strb	w9, [x20, x8]
	cmp	x8, #1023
	add	x9, x8, #1
	str	x9, [x19, #1032]
	b.lo	.LBB35_1636
	mov	x0, x19
	bl	"std_io::io::buffer::Buffer::flush"
	cbz	w0, .LBB35_1870
	ldr	x9, [x19, #1032]
	cmp	x9, #1023
	b.hi	.LBB35_1814
.LBB35_1636:
	mov	w8, #111
	strb	w8, [x20, x9]
	cmp	x9, #1023
	add	x8, x9, #1
	str	x8, [x19, #1032]
	b.lo	.LBB35_1639
	mov	x0, x19
	bl	"std_io::io::buffer::Buffer::flush"
	cbz	w0, .LBB35_1870
	ldr	x8, [x19, #1032]
	cmp	x8, #1023
	b.hi	.LBB35_1863
.LBB35_1639:
	mov	w9, #117
	strb	w9, [x20, x8]
	cmp	x8, #1023
	add	x9, x8, #1
	str	x9, [x19, #1032]
	b.lo	.LBB35_1642
	mov	x0, x19
	bl	"std_io::io::buffer::Buffer::flush"
	cbz	w0, .LBB35_1870
	ldr	x9, [x19, #1032]
	cmp	x9, #1023
	b.hi	.LBB35_1863
.LBB35_1642:
	mov	w0, wzr
	mov	w8, #116
	b	.LBB35_1800
.LBB35_1643:
	mov	w8, #32
	strb	w8, [x20, x9]
	cmp	x9, #1023
	add	x8, x9, #1
	str	x8, [x19, #1032]
	b.lo	.LBB35_1646
	mov	x0, x19
	bl	"std_io::io::buffer::Buffer::flush"
	cbz	w0, .LBB35_1814
	ldr	x8, [x19, #1032]
	cmp	x8, #1023
	b.hi	.LBB35_1807
.LBB35_1646:
	mov	w9, #112
	strb	w9, [x20, x8]
	cmp	x8, #1023
	add	x9, x8, #1
	str	x9, [x19, #1032]
	b.lo	.LBB35_1649
	mov	x0, x19
	bl	"std_io::io::buffer::Buffer::flush"
	cbz	w0, .LBB35_1863
	ldr	x9, [x19, #1032]
	cmp	x9, #1023
	b.hi	.LBB35_1807
.LBB35_1649:
	mov	w8, #114
	strb	w8, [x20, x9]
	cmp	x9, #1023
	add	x8, x9, #1
	str	x8, [x19, #1032]
	b.lo	.LBB35_1652
	mov	x0, x19
	bl	"std_io::io::buffer::Buffer::flush"
	cbz	w0, .LBB35_1863
	ldr	x8, [x19, #1032]
	cmp	x8, #1023
	b.hi	.LBB35_1814
.LBB35_1652:
	mov	w9, #111
	strb	w9, [x20, x8]
	cmp	x8, #1023
	add	x9, x8, #1
	str	x9, [x19, #1032]
	b.lo	.LBB35_1655
	mov	x0, x19
	bl	"std_io::io::buffer::Buffer::flush"
	cbz	w0, .LBB35_1870
	ldr	x9, [x19, #1032]
	cmp	x9, #1023
	b.hi	.LBB35_1814
.LBB35_1655:
	mov	w8, #103
	strb	w8, [x20, x9]
	cmp	x9, #1023
	add	x8, x9, #1
	str	x8, [x19, #1032]
	b.lo	.LBB35_1658
	mov	x0, x19
	bl	"std_io::io::buffer::Buffer::flush"
	cbz	w0, .LBB35_1870
	ldr	x8, [x19, #1032]
	cmp	x8, #1023
	b.hi	.LBB35_1863
.LBB35_1658:
	mov	w9, #114
	strb	w9, [x20, x8]
	cmp	x8, #1023
	add	x9, x8, #1
	str	x9, [x19, #1032]
	b.lo	.LBB35_1661
	mov	x0, x19
	bl	"std_io::io::buffer::Buffer::flush"
	cbz	w0, .LBB35_1870
	ldr	x9, [x19, #1032]
	cmp	x9, #1023
	b.hi	.LBB35_1863
.LBB35_1661:
	mov	w8, #101
	strb	w8, [x20, x9]
	cmp	x9, #1023
	add	x8, x9, #1
	str	x8, [x19, #1032]
	b.lo	.LBB35_1664
	mov	x0, x19
	bl	"std_io::io::buffer::Buffer::flush"
	cbz	w0, .LBB35_1880
	ldr	x8, [x19, #1032]
	cmp	x8, #1023
	b.hi	.LBB35_1870
.LBB35_1664:
	mov	w21, #115
	add	x9, x8, #1
	cmp	x8, #1023
	strb	w21, [x20, x8]
	str	x9, [x19, #1032]
	b.lo	.LBB35_1667
	mov	x0, x19
	bl	"std_io::io::buffer::Buffer::flush"
	cbz	w0, .LBB35_1880
	ldr	x9, [x19, #1032]
	cmp	x9, #1023
	b.hi	.LBB35_1870
.LBB35_1667:
	mov	w0, wzr
	strb	w21, [x20, x9]
	add	x8, x9, #1
	str	x8, [x19, #1032]
	ldp	x20, x19, [sp, #32]
	ldp	x22, x21, [sp, #16]
	ldp	x29, x30, [sp], #48
	ret
.LBB35_1668:
	mov	w8, #105
	strb	w8, [x20, x9]
	cmp	x9, #1023
	add	x8, x9, #1
	str	x8, [x19, #1032]
	b.lo	.LBB35_1671
	mov	x0, x19
	bl	"std_io::io::buffer::Buffer::flush"
	cbz	w0, .LBB35_1814
	ldr	x8, [x19, #1032]
	cmp	x8, #1023
	b.hi	.LBB35_1807
.LBB35_1671:
	mov	w9, #116
	strb	w9, [x20, x8]
	cmp	x8, #1023
	add	x9, x8, #1
	str	x9, [x19, #1032]
	b.lo	.LBB35_1674
	mov	x0, x19
	bl	"std_io::io::buffer::Buffer::flush"
	cbz	w0, .LBB35_1863
	ldr	x9, [x19, #1032]
	cmp	x9, #1023
	b.hi	.LBB35_1807
.LBB35_1674:
	mov	w8, #101
	strb	w8, [x20, x9]
	cmp	x9, #1023
	add	x8, x9, #1
	str	x8, [x19, #1032]
	b.lo	.LBB35_1677
	mov	x0, x19
	bl	"std_io::io::buffer::Buffer::flush"
	cbz	w0, .LBB35_1863
	ldr	x8, [x19, #1032]
	cmp	x8, #1023
	b.hi	.LBB35_1814
.LBB35_1677:
	mov	w9, #32
	strb	w9, [x20, x8]
	cmp	x8, #1023
	add	x9, x8, #1
	str	x9, [x19, #1032]
	b.lo	.LBB35_1680
	mov	x0, x19
	bl	"std_io::io::buffer::Buffer::flush"
	cbz	w0, .LBB35_1870
	ldr	x9, [x19, #1032]
	cmp	x9, #1023
	b.hi	.LBB35_1814
.LBB35_1680:
	mov	w8, #122
	strb	w8, [x20, x9]
	cmp	x9, #1023
	add	x8, x9, #1
	str	x8, [x19, #1032]
	b.lo	.LBB35_1683
	mov	x0, x19
	bl	"std_io::io::buffer::Buffer::flush"
	cbz	w0, .LBB35_1870
	ldr	x8, [x19, #1032]
	cmp	x8, #1023
	b.hi	.LBB35_1863
.LBB35_1683:
	mov	w9, #101
	strb	w9, [x20, x8]
	cmp	x8, #1023
	add	x9, x8, #1
	str	x9, [x19, #1032]
	b.lo	.LBB35_1686
	mov	x0, x19
	bl	"std_io::io::buffer::Buffer::flush"
	cbz	w0, .LBB35_1870
	ldr	x9, [x19, #1032]
	cmp	x9, #1023
	b.hi	.LBB35_1863
.LBB35_1686:
	mov	w8, #114
	strb	w8, [x20, x9]
	cmp	x9, #1023
	add	x8, x9, #1
	str	x8, [x19, #1032]
	b.lo	.LBB35_1689
	mov	x0, x19
	bl	"std_io::io::buffer::Buffer::flush"
	cbz	w0, .LBB35_1880
	ldr	x8, [x19, #1032]
	cmp	x8, #1023
	b.hi	.LBB35_1870
.LBB35_1689:
	mov	w0, wzr
	mov	w9, #111
	b	.LBB35_1882
.LBB35_1690:
	mov	w8, #115
	strb	w8, [x20, x9]
	cmp	x9, #1023
	add	x8, x9, #1
	str	x8, [x19, #1032]
	b.lo	.LBB35_1693
	mov	x0, x19
	bl	"std_io::io::buffer::Buffer::flush"
	cbz	w0, .LBB35_1814
	ldr	x8, [x19, #1032]
	cmp	x8, #1023
	b.hi	.LBB35_1807
.LBB35_1693:
	mov	w9, #111
	strb	w9, [x20, x8]
	cmp	x8, #1023
	add	x9, x8, #1
	str	x9, [x19, #1032]
	b.lo	.LBB35_1696
	mov	x0, x19
	bl	"std_io::io::buffer::Buffer::flush"
	cbz	w0, .LBB35_1863
	ldr	x9, [x19, #1032]
	cmp	x9, #1023
	b.hi	.LBB35_1807
.LBB35_1696:
	mov	w8, #117
	strb	w8, [x20, x9]
	cmp	x9, #1023
	add	x8, x9, #1
	str	x8, [x19, #1032]
	b.lo	.LBB35_1699
	mov	x0, x19
	bl	"std_io::io::buffer::Buffer::flush"
	cbz	w0, .LBB35_1863
	ldr	x8, [x19, #1032]
	cmp	x8, #1023
	b.hi	.LBB35_1814
.LBB35_1699:
	mov	w9, #114
	strb	w9, [x20, x8]
	cmp	x8, #1023
	add	x9, x8, #1
	str	x9, [x19, #1032]
	b.lo	.LBB35_1702
	mov	x0, x19
	bl	"std_io::io::buffer::Buffer::flush"
	cbz	w0, .LBB35_1870
	ldr	x9, [x19, #1032]
	cmp	x9, #1023
	b.hi	.LBB35_1814
.LBB35_1702:
	mov	w8, #99
	strb	w8, [x20, x9]
	cmp	x9, #1023
	add	x8, x9, #1
	str	x8, [x19, #1032]
	b.lo	.LBB35_1705
	mov	x0, x19
	bl	"std_io::io::buffer::Buffer::flush"
	cbz	w0, .LBB35_1870
	ldr	x8, [x19, #1032]
	cmp	x8, #1023
	b.hi	.LBB35_1863
.LBB35_1705:
	mov	w9, #101
	strb	w9, [x20, x8]
	cmp	x8, #1023
	add	x9, x8, #1
	str	x9, [x19, #1032]
	b.lo	.LBB35_1708
	mov	x0, x19
	bl	"std_io::io::buffer::Buffer::flush"
	cbz	w0, .LBB35_1870
	ldr	x9, [x19, #1032]
	cmp	x9, #1023
	b.hi	.LBB35_1863
.LBB35_1708:
	mov	w8, #32
	strb	w8, [x20, x9]
	cmp	x9, #1023
	add	x8, x9, #1
	str	x8, [x19, #1032]
	b.lo	.LBB35_1711
	mov	x0, x19
	bl	"std_io::io::buffer::Buffer::flush"
	cbz	w0, .LBB35_1880
	ldr	x8, [x19, #1032]
	cmp	x8, #1023
	b.hi	.LBB35_1870
.LBB35_1711:
	mov	w9, #98
	strb	w9, [x20, x8]
	cmp	x8, #1023
	add	x9, x8, #1
	str	x9, [x19, #1032]
	b.lo	.LBB35_1714
	mov	x0, x19
	bl	"std_io::io::buffer::Buffer::flush"
	cbz	w0, .LBB35_1880
	ldr	x9, [x19, #1032]
	cmp	x9, #1023
	b.hi	.LBB35_1870
.LBB35_1714:
	mov	w8, #117
	strb	w8, [x20, x9]
	cmp	x9, #1023
	add	x8, x9, #1
	str	x8, [x19, #1032]
	b.lo	.LBB35_1717
	mov	x0, x19
	bl	"std_io::io::buffer::Buffer::flush"
	cbz	w0, .LBB35_1892
	ldr	x8, [x19, #1032]
	cmp	x8, #1023
	b.hi	.LBB35_1880
.LBB35_1717:
	mov	w9, #115
	strb	w9, [x20, x8]
	cmp	x8, #1023
	add	x9, x8, #1
	str	x9, [x19, #1032]
	b.lo	.LBB35_1799
	b	.LBB35_1797
.LBB35_1718:
	mov	w8, #101
	strb	w8, [x20, x9]
	cmp	x9, #1023
	add	x8, x9, #1
	str	x8, [x19, #1032]
	b.lo	.LBB35_1721
	mov	x0, x19
	bl	"std_io::io::buffer::Buffer::flush"
	cbz	w0, .LBB35_1814
	ldr	x8, [x19, #1032]
	cmp	x8, #1023
	b.hi	.LBB35_1807
.LBB35_1721:
	mov	w9, #99
	strb	w9, [x20, x8]
	cmp	x8, #1023
	add	x9, x8, #1
	str	x9, [x19, #1032]
	b.lo	.LBB35_1724
	mov	x0, x19
	bl	"std_io::io::buffer::Buffer::flush"
	cbz	w0, .LBB35_1863
	ldr	x9, [x19, #1032]
	cmp	x9, #1023
	b.hi	.LBB35_1807
.LBB35_1724:
	mov	w8, #117
	strb	w8, [x20, x9]
	cmp	x9, #1023
	add	x8, x9, #1
	str	x8, [x19, #1032]
	b.lo	.LBB35_1727
	mov	x0, x19
	bl	"std_io::io::buffer::Buffer::flush"
	cbz	w0, .LBB35_1863
	ldr	x8, [x19, #1032]
	cmp	x8, #1023
	b.hi	.LBB35_1814
.LBB35_1727:
	mov	w9, #116
	strb	w9, [x20, x8]
	cmp	x8, #1023
	add	x9, x8, #1
	str	x9, [x19, #1032]
	b.lo	.LBB35_1730
	mov	x0, x19
	bl	"std_io::io::buffer::Buffer::flush"
	cbz	w0, .LBB35_1870
	ldr	x9, [x19, #1032]
	cmp	x9, #1023
	b.hi	.LBB35_1814
.LBB35_1730:
	mov	w8, #97
	strb	w8, [x20, x9]
	cmp	x9, #1023
	add	x8, x9, #1
	str	x8, [x19, #1032]
	b.lo	.LBB35_1733
	mov	x0, x19
	bl	"std_io::io::buffer::Buffer::flush"
	cbz	w0, .LBB35_1870
	ldr	x8, [x19, #1032]
	cmp	x8, #1023
	b.hi	.LBB35_1863
.LBB35_1733:
	mov	w9, #98
	strb	w9, [x20, x8]
	cmp	x8, #1023
	add	x9, x8, #1
	str	x9, [x19, #1032]
	b.lo	.LBB35_1736
	mov	x0, x19
	bl	"std_io::io::buffer::Buffer::flush"
	cbz	w0, .LBB35_1870
	ldr	x9, [x19, #1032]
	cmp	x9, #1023
	b.hi	.LBB35_1863
.LBB35_1736:
	mov	w8, #108
	strb	w8, [x20, x9]
	cmp	x9, #1023
	add	x8, x9, #1
	str	x8, [x19, #1032]
	b.lo	.LBB35_1739
	mov	x0, x19
	bl	"std_io::io::buffer::Buffer::flush"
	cbz	w0, .LBB35_1880
	ldr	x8, [x19, #1032]
	cmp	x8, #1023
	b.hi	.LBB35_1870
.LBB35_1739:
	mov	w9, #101
	strb	w9, [x20, x8]
	cmp	x8, #1023
	add	x9, x8, #1
	str	x9, [x19, #1032]
	b.lo	.LBB35_1742
	mov	x0, x19
	bl	"std_io::io::buffer::Buffer::flush"
	cbz	w0, .LBB35_1880
	ldr	x9, [x19, #1032]
	cmp	x9, #1023
	b.hi	.LBB35_1870
.LBB35_1742:
	mov	w8, #32
	strb	w8, [x20, x9]
	cmp	x9, #1023
	add	x8, x9, #1
	str	x8, [x19, #1032]
	b.lo	.LBB35_1745
	mov	x0, x19
	bl	"std_io::io::buffer::Buffer::flush"
	cbz	w0, .LBB35_1892
	ldr	x8, [x19, #1032]
	cmp	x8, #1023
	b.hi	.LBB35_1880
.LBB35_1745:
	mov	w9, #102
	strb	w9, [x20, x8]
	cmp	x8, #1023
	add	x9, x8, #1
	str	x9, [x19, #1032]
	b.lo	.LBB35_1748
	mov	x0, x19
	bl	"std_io::io::buffer::Buffer::flush"
	cbz	w0, .LBB35_1892
	ldr	x9, [x19, #1032]
	cmp	x9, #1023
	b.hi	.LBB35_1880
.LBB35_1748:
	mov	w8, #105
	strb	w8, [x20, x9]
	cmp	x9, #1023
	add	x8, x9, #1
	str	x8, [x19, #1032]
	b.lo	.LBB35_1751
	mov	x0, x19
	bl	"std_io::io::buffer::Buffer::flush"
	cbz	w0, .LBB35_1892
	ldr	x8, [x19, #1032]
	cmp	x8, #1023
	b.hi	.LBB35_1880
.LBB35_1751:
	mov	w9, #108
	strb	w9, [x20, x8]
	cmp	x8, #1023
	add	x9, x8, #1
	str	x9, [x19, #1032]
	b.lo	.LBB35_1754
	mov	x0, x19
	bl	"std_io::io::buffer::Buffer::flush"
	cbz	w0, .LBB35_1892
	ldr	x9, [x19, #1032]
	cmp	x9, #1023
	b.hi	.LBB35_1892
.LBB35_1754:
	mov	w8, #101
	strb	w8, [x20, x9]
	cmp	x9, #1023
	add	x8, x9, #1
	str	x8, [x19, #1032]
	b.lo	.LBB35_1757
	mov	x0, x19
	bl	"std_io::io::buffer::Buffer::flush"
	cbz	w0, .LBB35_1905
	ldr	x8, [x19, #1032]
	cmp	x8, #1023
	b.hi	.LBB35_1892
.LBB35_1757:
	mov	w9, #32
	strb	w9, [x20, x8]
	cmp	x8, #1023
	add	x9, x8, #1
	str	x9, [x19, #1032]
	b.lo	.LBB35_1760
	mov	x0, x19
	bl	"std_io::io::buffer::Buffer::flush"
	cbz	w0, .LBB35_1905
	ldr	x9, [x19, #1032]
	cmp	x9, #1023
	b.hi	.LBB35_1892
.LBB35_1760:
	mov	w8, #98
	strb	w8, [x20, x9]
	cmp	x9, #1023
	add	x8, x9, #1
	str	x8, [x19, #1032]
	b.lo	.LBB35_1763
	mov	x0, x19
	bl	"std_io::io::buffer::Buffer::flush"
	cbz	w0, .LBB35_1905
	ldr	x8, [x19, #1032]
	cmp	x8, #1023
	b.hi	.LBB35_1905
.LBB35_1763:
	mov	w9, #117
	strb	w9, [x20, x8]
	cmp	x8, #1023
	add	x9, x8, #1
	str	x9, [x19, #1032]
	b.lo	.LBB35_1766
	mov	x0, x19
	bl	"std_io::io::buffer::Buffer::flush"
	cbz	w0, .LBB35_1905
	ldr	x9, [x19, #1032]
	cmp	x9, #1023
	b.hi	.LBB35_1905
.LBB35_1766:
	mov	w8, #115
	strb	w8, [x20, x9]
	cmp	x9, #1023
	add	x8, x9, #1
	str	x8, [x19, #1032]
	b.lo	.LBB35_1141
	mov	x0, x19
	bl	"std_io::io::buffer::Buffer::flush"
	cbz	w0, .LBB35_1905
	ldr	x8, [x19, #1032]
	cmp	x8, #1023
	b.hi	.LBB35_1905
	b	.LBB35_1141
.LBB35_1769:
	mov	w8, #116
	strb	w8, [x20, x9]
	cmp	x9, #1023
	add	x8, x9, #1
	str	x8, [x19, #1032]
	b.lo	.LBB35_1772
	mov	x0, x19
	bl	"std_io::io::buffer::Buffer::flush"
	cbz	w0, .LBB35_1814
	ldr	x8, [x19, #1032]
	cmp	x8, #1023
	b.hi	.LBB35_1807
.LBB35_1772:
	mov	w9, #32
	strb	w9, [x20, x8]
	cmp	x8, #1023
	add	x9, x8, #1
	str	x9, [x19, #1032]
	b.lo	.LBB35_1775
	mov	x0, x19
	bl	"std_io::io::buffer::Buffer::flush"
	cbz	w0, .LBB35_1863
	ldr	x9, [x19, #1032]
	cmp	x9, #1023
	b.hi	.LBB35_1807
.LBB35_1775:
	mov	w8, #111
	strb	w8, [x20, x9]
	cmp	x9, #1023
	add	x8, x9, #1
	str	x8, [x19, #1032]
	b.lo	.LBB35_1778
	mov	x0, x19
	bl	"std_io::io::buffer::Buffer::flush"
	cbz	w0, .LBB35_1863
	ldr	x8, [x19, #1032]
	cmp	x8, #1023
	b.hi	.LBB35_1814
.LBB35_1778:
	mov	w9, #102
	strb	w9, [x20, x8]
	cmp	x8, #1023
	add	x9, x8, #1
	str	x9, [x19, #1032]
	b.lo	.LBB35_1781
	mov	x0, x19
	bl	"std_io::io::buffer::Buffer::flush"
	cbz	w0, .LBB35_1870
	ldr	x9, [x19, #1032]
	cmp	x9, #1023
	b.hi	.LBB35_1814
.LBB35_1781:
	mov	w8, #32
	strb	w8, [x20, x9]
	cmp	x9, #1023
	add	x8, x9, #1
	str	x8, [x19, #1032]
	b.lo	.LBB35_1784
	mov	x0, x19
	bl	"std_io::io::buffer::Buffer::flush"
	cbz	w0, .LBB35_1870
	ldr	x8, [x19, #1032]
	cmp	x8, #1023
	b.hi	.LBB35_1863
.LBB35_1784:
	mov	w9, #109
	strb	w9, [x20, x8]
	cmp	x8, #1023
	add	x9, x8, #1
	str	x9, [x19, #1032]
	b.lo	.LBB35_1787
	mov	x0, x19
	bl	"std_io::io::buffer::Buffer::flush"
	cbz	w0, .LBB35_1870
	ldr	x9, [x19, #1032]
	cmp	x9, #1023
	b.hi	.LBB35_1863
.LBB35_1787:
	mov	w8, #101
	strb	w8, [x20, x9]
	cmp	x9, #1023
	add	x8, x9, #1
	str	x8, [x19, #1032]
	b.lo	.LBB35_1790
	mov	x0, x19
	bl	"std_io::io::buffer::Buffer::flush"
	cbz	w0, .LBB35_1880
	ldr	x8, [x19, #1032]
	cmp	x8, #1023
	b.hi	.LBB35_1870
.LBB35_1790:
	mov	w9, #109
	strb	w9, [x20, x8]
	cmp	x8, #1023
	add	x9, x8, #1
	str	x9, [x19, #1032]
	b.lo	.LBB35_1793
	mov	x0, x19
	bl	"std_io::io::buffer::Buffer::flush"
	cbz	w0, .LBB35_1880
	ldr	x9, [x19, #1032]
	cmp	x9, #1023
	b.hi	.LBB35_1870
.LBB35_1793:
	mov	w8, #111
	strb	w8, [x20, x9]
	cmp	x9, #1023
	add	x8, x9, #1
	str	x8, [x19, #1032]
	b.lo	.LBB35_1796
	mov	x0, x19
	bl	"std_io::io::buffer::Buffer::flush"
	cbz	w0, .LBB35_1892
	ldr	x8, [x19, #1032]
	cmp	x8, #1023
	b.hi	.LBB35_1880
.LBB35_1796:
	mov	w9, #114
	strb	w9, [x20, x8]
	cmp	x8, #1023
	add	x9, x8, #1
	str	x9, [x19, #1032]
	b.lo	.LBB35_1799
.LBB35_1797:
	mov	x0, x19
	bl	"std_io::io::buffer::Buffer::flush"
	cbz	w0, .LBB35_1892
	ldr	x9, [x19, #1032]
	cmp	x9, #1023
	b.hi	.LBB35_1880
.LBB35_1799:
	mov	w0, wzr
	mov	w8, #121
.LBB35_1800:
	strb	w8, [x20, x9]
	add	x8, x9, #1
	str	x8, [x19, #1032]
	ldp	x20, x19, [sp, #32]
	ldp	x22, x21, [sp, #16]
	ldp	x29, x30, [sp], #48
	ret
.LBB35_1801:
	mov	w8, #111
	strb	w8, [x20, x9]
	cmp	x9, #1023
	add	x8, x9, #1
	str	x8, [x19, #1032]
	b.lo	.LBB35_1804
	mov	x0, x19
	bl	"std_io::io::buffer::Buffer::flush"
	cbz	w0, .LBB35_1814
	ldr	x8, [x19, #1032]
	cmp	x8, #1023
	b.hi	.LBB35_1807
.LBB35_1804:
	mov	w9, #116
	strb	w9, [x20, x8]
	cmp	x8, #1023
	add	x9, x8, #1
	str	x9, [x19, #1032]
	b.lo	.LBB35_1808
	mov	x0, x19
	bl	"std_io::io::buffer::Buffer::flush"
	cbz	w0, .LBB35_1863
	ldr	x9, [x19, #1032]
	cmp	x9, #1023
	b.ls	.LBB35_1808
.LBB35_1807:
	mov	w0, #1
	ldp	x20, x19, [sp, #32]
	ldp	x22, x21, [sp, #16]
	ldp	x29, x30, [sp], #48
	ret
.LBB35_1808:
	mov	w8, #97
	strb	w8, [x20, x9]
	cmp	x9, #1023
	add	x8, x9, #1
	str	x8, [x19, #1032]
	b.lo	.LBB35_1811
	mov	x0, x19
	bl	"std_io::io::buffer::Buffer::flush"
	cbz	w0, .LBB35_1863
	ldr	x8, [x19, #1032]
	cmp	x8, #1023
	b.hi	.LBB35_1814
.LBB35_1811:
	mov	w9, #32
	strb	w9, [x20, x8]
	cmp	x8, #1023
	add	x9, x8, #1
	str	x9, [x19, #1032]
	b.lo	.LBB35_1857
	mov	x0, x19
	bl	"std_io::io::buffer::Buffer::flush"
	cbz	w0, .LBB35_1870
	ldr	x9, [x19, #1032]
	cmp	x9, #1023
	b.ls	.LBB35_1857
.LBB35_1814:
	mov	w0, #1
	ldp	x20, x19, [sp, #32]
	ldp	x22, x21, [sp, #16]
	ldp	x29, x30, [sp], #48
	ret
.LBB35_1815:
	adrp	x1, .Lstatic.155
	add	x1, x1, :lo12:.Lstatic.155
	mov	x0, x19
	mov	w2, #22
	ldp	x20, x19, [sp, #32]
	ldp	x22, x21, [sp, #16]
	ldp	x29, x30, [sp], #48
	b	"core::fmt::formatter::Formatter::write_indented::<#bf264aed5fa78656>"
.LBB35_1816:
	adrp	x1, .Lstatic.153
	add	x1, x1, :lo12:.Lstatic.153
	mov	x0, x19
	mov	w2, #21
	ldp	x20, x19, [sp, #32]
	ldp	x22, x21, [sp, #16]
	ldp	x29, x30, [sp], #48
	b	"core::fmt::formatter::Formatter::write_indented::<#bf264aed5fa78656>"
.LBB35_1817:
	adrp	x1, .Lstatic.154
	add	x1, x1, :lo12:.Lstatic.154
	mov	x0, x19
	mov	w2, #11
	ldp	x20, x19, [sp, #32]
	ldp	x22, x21, [sp, #16]
	ldp	x29, x30, [sp], #48
	b	"core::fmt::formatter::Formatter::write_indented::<#bf264aed5fa78656>"
.LBB35_1818:
	adrp	x1, .Lstatic.145
	add	x1, x1, :lo12:.Lstatic.145
	mov	x0, x19
	mov	w2, #14
	ldp	x20, x19, [sp, #32]
	ldp	x22, x21, [sp, #16]
	ldp	x29, x30, [sp], #48
	b	"core::fmt::formatter::Formatter::write_indented::<#bf264aed5fa78656>"
.LBB35_1819:
	adrp	x1, .Lstatic.152
	add	x1, x1, :lo12:.Lstatic.152
	mov	x0, x19
	mov	w2, #22
	ldp	x20, x19, [sp, #32]
	ldp	x22, x21, [sp, #16]
	ldp	x29, x30, [sp], #48
	b	"core::fmt::formatter::Formatter::write_indented::<#bf264aed5fa78656>"
.LBB35_1820:
	adrp	x1, .Lstatic.134
	add	x1, x1, :lo12:.Lstatic.134
	mov	x0, x19
	mov	w2, #19
	ldp	x20, x19, [sp, #32]
	ldp	x22, x21, [sp, #16]
	ldp	x29, x30, [sp], #48
	b	"core::fmt::formatter::Formatter::write_indented::<#bf264aed5fa78656>"
.LBB35_1821:
	adrp	x1, .Lstatic.132
	add	x1, x1, :lo12:.Lstatic.132
	mov	x0, x19
	mov	w2, #15
	ldp	x20, x19, [sp, #32]
	ldp	x22, x21, [sp, #16]
	ldp	x29, x30, [sp], #48
	b	"core::fmt::formatter::Formatter::write_indented::<#bf264aed5fa78656>"
.LBB35_1822:
	adrp	x1, .Lstatic.151
	add	x1, x1, :lo12:.Lstatic.151
	mov	x0, x19
	mov	w2, #16
	ldp	x20, x19, [sp, #32]
	ldp	x22, x21, [sp, #16]
	ldp	x29, x30, [sp], #48
	b	"core::fmt::formatter::Formatter::write_indented::<#bf264aed5fa78656>"
.LBB35_1823:
	adrp	x1, .Lstatic.129
	add	x1, x1, :lo12:.Lstatic.129
	mov	x0, x19
	mov	w2, #11
	ldp	x20, x19, [sp, #32]
	ldp	x22, x21, [sp, #16]
	ldp	x29, x30, [sp], #48
	b	"core::fmt::formatter::Formatter::write_indented::<#bf264aed5fa78656>"
.LBB35_1824:
	adrp	x1, .Lstatic.122
	add	x1, x1, :lo12:.Lstatic.122
	mov	x0, x19
	mov	w2, #16
	ldp	x20, x19, [sp, #32]
	ldp	x22, x21, [sp, #16]
	ldp	x29, x30, [sp], #48
	b	"core::fmt::formatter::Formatter::write_indented::<#bf264aed5fa78656>"
.LBB35_1825:
	adrp	x1, .Lstatic.157
	add	x1, x1, :lo12:.Lstatic.157
	mov	x0, x19
	mov	w2, #11
	ldp	x20, x19, [sp, #32]
	ldp	x22, x21, [sp, #16]
	ldp	x29, x30, [sp], #48
	b	"core::fmt::formatter::Formatter::write_indented::<#bf264aed5fa78656>"
.LBB35_1826:
	adrp	x1, .Lstatic.130
	add	x1, x1, :lo12:.Lstatic.130
	mov	x0, x19
	mov	w2, #21
	ldp	x20, x19, [sp, #32]
	ldp	x22, x21, [sp, #16]
	ldp	x29, x30, [sp], #48
	b	"core::fmt::formatter::Formatter::write_indented::<#bf264aed5fa78656>"
.LBB35_1827:
	adrp	x1, .Lstatic.127
	add	x1, x1, :lo12:.Lstatic.127
	mov	x0, x19
	mov	w2, #21
	ldp	x20, x19, [sp, #32]
	ldp	x22, x21, [sp, #16]
	ldp	x29, x30, [sp], #48
	b	"core::fmt::formatter::Formatter::write_indented::<#bf264aed5fa78656>"
.LBB35_1828:
	adrp	x1, .Lstatic.143
	add	x1, x1, :lo12:.Lstatic.143
	mov	x0, x19
	mov	w2, #23
	ldp	x20, x19, [sp, #32]
	ldp	x22, x21, [sp, #16]
	ldp	x29, x30, [sp], #48
	b	"core::fmt::formatter::Formatter::write_indented::<#bf264aed5fa78656>"
.LBB35_1829:
	adrp	x1, .Lstatic.142
	add	x1, x1, :lo12:.Lstatic.142
	mov	x0, x19
	mov	w2, #16
	ldp	x20, x19, [sp, #32]
	ldp	x22, x21, [sp, #16]
	ldp	x29, x30, [sp], #48
	b	"core::fmt::formatter::Formatter::write_indented::<#bf264aed5fa78656>"
.LBB35_1830:
	adrp	x1, .Lstatic.120
	add	x1, x1, :lo12:.Lstatic.120
	mov	x0, x19
	mov	w2, #18
	ldp	x20, x19, [sp, #32]
	ldp	x22, x21, [sp, #16]
	ldp	x29, x30, [sp], #48
	b	"core::fmt::formatter::Formatter::write_indented::<#bf264aed5fa78656>"
.LBB35_1831:
	adrp	x1, .Lstatic.133
	add	x1, x1, :lo12:.Lstatic.133
	mov	x0, x19
	mov	w2, #14
	ldp	x20, x19, [sp, #32]
	ldp	x22, x21, [sp, #16]
	ldp	x29, x30, [sp], #48
	b	"core::fmt::formatter::Formatter::write_indented::<#bf264aed5fa78656>"
.LBB35_1832:
	adrp	x1, .Lstatic.121
	add	x1, x1, :lo12:.Lstatic.121
	mov	x0, x19
	mov	w2, #16
	ldp	x20, x19, [sp, #32]
	ldp	x22, x21, [sp, #16]
	ldp	x29, x30, [sp], #48
	b	"core::fmt::formatter::Formatter::write_indented::<#bf264aed5fa78656>"
.LBB35_1833:
	adrp	x1, .Lstatic.125
	add	x1, x1, :lo12:.Lstatic.125
	mov	x0, x19
	mov	w2, #13
	ldp	x20, x19, [sp, #32]
	ldp	x22, x21, [sp, #16]
	ldp	x29, x30, [sp], #48
	b	"core::fmt::formatter::Formatter::write_indented::<#bf264aed5fa78656>"
.LBB35_1834:
	adrp	x1, .Lstatic.118
	add	x1, x1, :lo12:.Lstatic.118
	mov	x0, x19
	mov	w2, #16
	ldp	x20, x19, [sp, #32]
	ldp	x22, x21, [sp, #16]
	ldp	x29, x30, [sp], #48
	b	"core::fmt::formatter::Formatter::write_indented::<#bf264aed5fa78656>"
.LBB35_1835:
	adrp	x1, .Lstatic.119
	add	x1, x1, :lo12:.Lstatic.119
	mov	x0, x19
	mov	w2, #17
	ldp	x20, x19, [sp, #32]
	ldp	x22, x21, [sp, #16]
	ldp	x29, x30, [sp], #48
	b	"core::fmt::formatter::Formatter::write_indented::<#bf264aed5fa78656>"
.LBB35_1836:
	adrp	x1, .Lstatic.149
	add	x1, x1, :lo12:.Lstatic.149
	mov	x0, x19
	mov	w2, #27
	ldp	x20, x19, [sp, #32]
	ldp	x22, x21, [sp, #16]
	ldp	x29, x30, [sp], #48
	b	"core::fmt::formatter::Formatter::write_indented::<#bf264aed5fa78656>"
.LBB35_1837:
	adrp	x1, .Lstatic.135
	add	x1, x1, :lo12:.Lstatic.135
	mov	x0, x19
	mov	w2, #38
	ldp	x20, x19, [sp, #32]
	ldp	x22, x21, [sp, #16]
	ldp	x29, x30, [sp], #48
	b	"core::fmt::formatter::Formatter::write_indented::<#bf264aed5fa78656>"
.LBB35_1838:
	adrp	x1, .Lstatic.158
	add	x1, x1, :lo12:.Lstatic.158
	mov	x0, x19
	mov	w2, #19
	ldp	x20, x19, [sp, #32]
	ldp	x22, x21, [sp, #16]
	ldp	x29, x30, [sp], #48
	b	"core::fmt::formatter::Formatter::write_indented::<#bf264aed5fa78656>"
.LBB35_1839:
	adrp	x1, .Lstatic.138
	add	x1, x1, :lo12:.Lstatic.138
	mov	x0, x19
	mov	w2, #23
	ldp	x20, x19, [sp, #32]
	ldp	x22, x21, [sp, #16]
	ldp	x29, x30, [sp], #48
	b	"core::fmt::formatter::Formatter::write_indented::<#bf264aed5fa78656>"
.LBB35_1840:
	adrp	x1, .Lstatic.123
	add	x1, x1, :lo12:.Lstatic.123
	mov	x0, x19
	mov	w2, #19
	ldp	x20, x19, [sp, #32]
	ldp	x22, x21, [sp, #16]
	ldp	x29, x30, [sp], #48
	b	"core::fmt::formatter::Formatter::write_indented::<#bf264aed5fa78656>"
.LBB35_1841:
	adrp	x1, .Lstatic.139
	add	x1, x1, :lo12:.Lstatic.139
	mov	x0, x19
	mov	w2, #12
	ldp	x20, x19, [sp, #32]
	ldp	x22, x21, [sp, #16]
	ldp	x29, x30, [sp], #48
	b	"core::fmt::formatter::Formatter::write_indented::<#bf264aed5fa78656>"
.LBB35_1842:
	adrp	x1, .Lstatic.131
	add	x1, x1, :lo12:.Lstatic.131
	mov	x0, x19
	mov	w2, #21
	ldp	x20, x19, [sp, #32]
	ldp	x22, x21, [sp, #16]
	ldp	x29, x30, [sp], #48
	b	"core::fmt::formatter::Formatter::write_indented::<#bf264aed5fa78656>"
.LBB35_1843:
	adrp	x1, .Lstatic.124
	add	x1, x1, :lo12:.Lstatic.124
	mov	x0, x19
	mov	w2, #18
	ldp	x20, x19, [sp, #32]
	ldp	x22, x21, [sp, #16]
	ldp	x29, x30, [sp], #48
	b	"core::fmt::formatter::Formatter::write_indented::<#bf264aed5fa78656>"
.LBB35_1844:
	adrp	x1, .Lstatic.136
	add	x1, x1, :lo12:.Lstatic.136
	mov	x0, x19
	mov	w2, #56
	ldp	x20, x19, [sp, #32]
	ldp	x22, x21, [sp, #16]
	ldp	x29, x30, [sp], #48
	b	"core::fmt::formatter::Formatter::write_indented::<#bf264aed5fa78656>"
.LBB35_1845:
	adrp	x1, .Lstatic.128
	add	x1, x1, :lo12:.Lstatic.128
	mov	x0, x19
	mov	w2, #12
	ldp	x20, x19, [sp, #32]
	ldp	x22, x21, [sp, #16]
	ldp	x29, x30, [sp], #48
	b	"core::fmt::formatter::Formatter::write_indented::<#bf264aed5fa78656>"
.LBB35_1846:
	adrp	x1, .Lstatic.126
	add	x1, x1, :lo12:.Lstatic.126
	mov	x0, x19
	mov	w2, #14
	ldp	x20, x19, [sp, #32]
	ldp	x22, x21, [sp, #16]
	ldp	x29, x30, [sp], #48
	b	"core::fmt::formatter::Formatter::write_indented::<#bf264aed5fa78656>"
.LBB35_1847:
	adrp	x1, .Lstatic.148
	add	x1, x1, :lo12:.Lstatic.148
	mov	x0, x19
	mov	w2, #8
	ldp	x20, x19, [sp, #32]
	ldp	x22, x21, [sp, #16]
	ldp	x29, x30, [sp], #48
	b	"core::fmt::formatter::Formatter::write_indented::<#bf264aed5fa78656>"
.LBB35_1848:
	adrp	x1, .Lstatic.150
	add	x1, x1, :lo12:.Lstatic.150
	mov	x0, x19
	mov	w2, #14
	ldp	x20, x19, [sp, #32]
	ldp	x22, x21, [sp, #16]
	ldp	x29, x30, [sp], #48
	b	"core::fmt::formatter::Formatter::write_indented::<#bf264aed5fa78656>"
.LBB35_1849:
	adrp	x1, .Lstatic.140
	add	x1, x1, :lo12:.Lstatic.140
	mov	x0, x19
	mov	w2, #9
	ldp	x20, x19, [sp, #32]
	ldp	x22, x21, [sp, #16]
	ldp	x29, x30, [sp], #48
	b	"core::fmt::formatter::Formatter::write_indented::<#bf264aed5fa78656>"
.LBB35_1850:
	adrp	x1, .Lstatic.156
	add	x1, x1, :lo12:.Lstatic.156
	mov	x0, x19
	mov	w2, #11
	ldp	x20, x19, [sp, #32]
	ldp	x22, x21, [sp, #16]
	ldp	x29, x30, [sp], #48
	b	"core::fmt::formatter::Formatter::write_indented::<#bf264aed5fa78656>"
.LBB35_1851:
	adrp	x1, .Lstatic.137
	add	x1, x1, :lo12:.Lstatic.137
	mov	x0, x19
	mov	w2, #25
	ldp	x20, x19, [sp, #32]
	ldp	x22, x21, [sp, #16]
	ldp	x29, x30, [sp], #48
	b	"core::fmt::formatter::Formatter::write_indented::<#bf264aed5fa78656>"
.LBB35_1852:
	adrp	x1, .Lstatic.141
	add	x1, x1, :lo12:.Lstatic.141
	mov	x0, x19
	mov	w2, #10
	ldp	x20, x19, [sp, #32]
	ldp	x22, x21, [sp, #16]
	ldp	x29, x30, [sp], #48
	b	"core::fmt::formatter::Formatter::write_indented::<#bf264aed5fa78656>"
.LBB35_1853:
	adrp	x1, .Lstatic.146
	add	x1, x1, :lo12:.Lstatic.146
	mov	x0, x19
	mov	w2, #13
	ldp	x20, x19, [sp, #32]
	ldp	x22, x21, [sp, #16]
	ldp	x29, x30, [sp], #48
	b	"core::fmt::formatter::Formatter::write_indented::<#bf264aed5fa78656>"
.LBB35_1854:
	adrp	x1, .Lstatic.147
	add	x1, x1, :lo12:.Lstatic.147
	mov	x0, x19
	mov	w2, #20
	ldp	x20, x19, [sp, #32]
	ldp	x22, x21, [sp, #16]
	ldp	x29, x30, [sp], #48
	b	"core::fmt::formatter::Formatter::write_indented::<#bf264aed5fa78656>"
.LBB35_1855:
	adrp	x1, .Lstatic.112
	add	x1, x1, :lo12:.Lstatic.112
	mov	x0, x19
	mov	w2, #13
	ldp	x20, x19, [sp, #32]
	ldp	x22, x21, [sp, #16]
	ldp	x29, x30, [sp], #48
	b	"core::fmt::formatter::Formatter::write_indented::<#bf264aed5fa78656>"
.LBB35_1856:
	adrp	x1, .Lstatic.144
	add	x1, x1, :lo12:.Lstatic.144
	mov	x0, x19
	mov	w2, #14
	ldp	x20, x19, [sp, #32]
	ldp	x22, x21, [sp, #16]
	ldp	x29, x30, [sp], #48
	b	"core::fmt::formatter::Formatter::write_indented::<#bf264aed5fa78656>"
.LBB35_1857:
	mov	w8, #101
	strb	w8, [x20, x9]
	cmp	x9, #1023
	add	x8, x9, #1
	str	x8, [x19, #1032]
	b.lo	.LBB35_1860
	mov	x0, x19
	bl	"std_io::io::buffer::Buffer::flush"
	cbz	w0, .LBB35_1870
	ldr	x8, [x19, #1032]
	cmp	x8, #1023
	b.hi	.LBB35_1863
.LBB35_1860:
	mov	w9, #120
	strb	w9, [x20, x8]
	cmp	x8, #1023
	add	x9, x8, #1
	str	x9, [x19, #1032]
	b.lo	.LBB35_1864
	mov	x0, x19
	bl	"std_io::io::buffer::Buffer::flush"
	cbz	w0, .LBB35_1870
	ldr	x9, [x19, #1032]
	cmp	x9, #1023
	b.ls	.LBB35_1864
.LBB35_1863:
	mov	w0, #1
	ldp	x20, x19, [sp, #32]
	ldp	x22, x21, [sp, #16]
	ldp	x29, x30, [sp], #48
	ret
.LBB35_1864:
	mov	w8, #99
	strb	w8, [x20, x9]
	cmp	x9, #1023
	add	x8, x9, #1
	str	x8, [x19, #1032]
	b.lo	.LBB35_1867
	mov	x0, x19
	bl	"std_io::io::buffer::Buffer::flush"
	cbz	w0, .LBB35_1880
	ldr	x8, [x19, #1032]
	cmp	x8, #1023
	b.hi	.LBB35_1870
.LBB35_1867:
	mov	w21, #101
	add	x9, x8, #1
	cmp	x8, #1023
	strb	w21, [x20, x8]
	str	x9, [x19, #1032]
	b.lo	.LBB35_1871
	mov	x0, x19
	bl	"std_io::io::buffer::Buffer::flush"
	cbz	w0, .LBB35_1880
	ldr	x9, [x19, #1032]
	cmp	x9, #1023
	b.ls	.LBB35_1871
.LBB35_1870:
	mov	w0, #1
	ldp	x20, x19, [sp, #32]
	ldp	x22, x21, [sp, #16]
	ldp	x29, x30, [sp], #48
	ret
.LBB35_1871:
	add	x8, x9, #1
	cmp	x9, #1023
	strb	w21, [x20, x9]
	str	x8, [x19, #1032]
	b.lo	.LBB35_1874
	mov	x0, x19
	bl	"std_io::io::buffer::Buffer::flush"
	cbz	w0, .LBB35_1892
	ldr	x8, [x19, #1032]
	cmp	x8, #1023
	b.hi	.LBB35_1880
.LBB35_1874:
	mov	w9, #100
	strb	w9, [x20, x8]
	cmp	x8, #1023
	add	x9, x8, #1
	str	x9, [x19, #1032]
	b.lo	.LBB35_1877
.LBB35_1875:
	mov	x0, x19
	bl	"std_io::io::buffer::Buffer::flush"
	cbz	w0, .LBB35_1892
	ldr	x9, [x19, #1032]
	cmp	x9, #1023
	b.hi	.LBB35_1880
.LBB35_1877:
	mov	w8, #101
	strb	w8, [x20, x9]
	cmp	x9, #1023
	add	x8, x9, #1
	str	x8, [x19, #1032]
	b.lo	.LBB35_1881
	mov	x0, x19
	bl	"std_io::io::buffer::Buffer::flush"
	cbz	w0, .LBB35_1892
	ldr	x8, [x19, #1032]
	cmp	x8, #1023
	b.ls	.LBB35_1881
.LBB35_1880:
	mov	w0, #1
	ldp	x20, x19, [sp, #32]
	ldp	x22, x21, [sp, #16]
	ldp	x29, x30, [sp], #48
	ret
.LBB35_1881:
	mov	w0, wzr
	mov	w9, #100
.LBB35_1882:
	strb	w9, [x20, x8]
	add	x8, x8, #1
	str	x8, [x19, #1032]
	ldp	x20, x19, [sp, #32]
	ldp	x22, x21, [sp, #16]
	ldp	x29, x30, [sp], #48
	ret
.LBB35_1883:
	mov	w8, #32
	strb	w8, [x20, x9]
	cmp	x9, #1023
	add	x8, x9, #1
	str	x8, [x19, #1032]
	b.lo	.LBB35_1886
	mov	x0, x19
	bl	"std_io::io::buffer::Buffer::flush"
	cbz	w0, .LBB35_1905
	ldr	x8, [x19, #1032]
	cmp	x8, #1023
	b.hi	.LBB35_1892
.LBB35_1886:
	mov	w9, #111
	strb	w9, [x20, x8]
	cmp	x8, #1023
	add	x9, x8, #1
	str	x9, [x19, #1032]
	b.lo	.LBB35_1889
	mov	x0, x19
	bl	"std_io::io::buffer::Buffer::flush"
	cbz	w0, .LBB35_1905
	ldr	x9, [x19, #1032]
	cmp	x9, #1023
	b.hi	.LBB35_1892
.LBB35_1889:
	mov	w8, #102
	strb	w8, [x20, x9]
	cmp	x9, #1023
	add	x8, x9, #1
	str	x8, [x19, #1032]
	b.lo	.LBB35_1893
	mov	x0, x19
	bl	"std_io::io::buffer::Buffer::flush"
	cbz	w0, .LBB35_1905
	ldr	x8, [x19, #1032]
	cmp	x8, #1023
	b.ls	.LBB35_1893
.LBB35_1892:
	mov	w0, #1
	ldp	x20, x19, [sp, #32]
	ldp	x22, x21, [sp, #16]
	ldp	x29, x30, [sp], #48
	ret
.LBB35_1893:
	mov	w9, #32
	strb	w9, [x20, x8]
	cmp	x8, #1023
	add	x9, x8, #1
	str	x9, [x19, #1032]
	b.lo	.LBB35_1896
	mov	x0, x19
	bl	"std_io::io::buffer::Buffer::flush"
	cbz	w0, .LBB35_1905
	ldr	x9, [x19, #1032]
	cmp	x9, #1023
	b.hi	.LBB35_1905
.LBB35_1896:
	mov	w8, #102
	strb	w8, [x20, x9]
	cmp	x9, #1023
	add	x8, x9, #1
	str	x8, [x19, #1032]
	b.lo	.LBB35_1899
	mov	x0, x19
	bl	"std_io::io::buffer::Buffer::flush"
	cbz	w0, .LBB35_1905
	ldr	x8, [x19, #1032]
	cmp	x8, #1023
	b.hi	.LBB35_1905
.LBB35_1899:
	mov	w9, #105
	strb	w9, [x20, x8]
	cmp	x8, #1023
	add	x9, x8, #1
	str	x9, [x19, #1032]
	b.lo	.LBB35_1902
	mov	x0, x19
	bl	"std_io::io::buffer::Buffer::flush"
	cbz	w0, .LBB35_1905
	ldr	x9, [x19, #1032]
	cmp	x9, #1023
	b.hi	.LBB35_1905
.LBB35_1902:
	mov	w8, #108
	strb	w8, [x20, x9]
	cmp	x9, #1023
	add	x8, x9, #1
	str	x8, [x19, #1032]
	b.lo	.LBB35_1573
	mov	x0, x19
	bl	"std_io::io::buffer::Buffer::flush"
	cbz	w0, .LBB35_1905
	ldr	x8, [x19, #1032]
	cmp	x8, #1023
	b.ls	.LBB35_1573
.LBB35_1905:
	mov	w0, #1
	ldp	x20, x19, [sp, #32]
	ldp	x22, x21, [sp, #16]
	ldp	x29, x30, [sp], #48
	ret
.Lfunc_end35:
	.size	"std_io::io::kind::ErrorKindDisplay::fmt::<#bf264aed5fa78656>", .Lfunc_end35-"std_io::io::kind::ErrorKindDisplay::fmt::<#bf264aed5fa78656>"
	.section	".rodata.std_io::io::kind::ErrorKindDisplay::fmt::<#bf264aed5fa78656>","a",@progbits
	.p2align	1, 0x0
.LJTI35_0:
	.hword	(.LBB35_1-.LBB35_1)>>2
	.hword	(.LBB35_104-.LBB35_1)>>2
	.hword	(.LBB35_84-.LBB35_1)>>2
	.hword	(.LBB35_94-.LBB35_1)>>2
	.hword	(.LBB35_52-.LBB35_1)>>2
	.hword	(.LBB35_135-.LBB35_1)>>2
	.hword	(.LBB35_150-.LBB35_1)>>2
	.hword	(.LBB35_99-.LBB35_1)>>2
	.hword	(.LBB35_167-.LBB35_1)>>2
	.hword	(.LBB35_67-.LBB35_1)>>2
	.hword	(.LBB35_162-.LBB35_1)>>2
	.hword	(.LBB35_47-.LBB35_1)>>2
	.hword	(.LBB35_62-.LBB35_1)>>2
	.hword	(.LBB35_145-.LBB35_1)>>2
	.hword	(.LBB35_37-.LBB35_1)>>2
	.hword	(.LBB35_89-.LBB35_1)>>2
	.hword	(.LBB35_32-.LBB35_1)>>2
	.hword	(.LBB35_116-.LBB35_1)>>2
	.hword	(.LBB35_155-.LBB35_1)>>2
	.hword	(.LBB35_192-.LBB35_1)>>2
	.hword	(.LBB35_128-.LBB35_1)>>2
	.hword	(.LBB35_140-.LBB35_1)>>2
	.hword	(.LBB35_182-.LBB35_1)>>2
	.hword	(.LBB35_199-.LBB35_1)>>2
	.hword	(.LBB35_79-.LBB35_1)>>2
	.hword	(.LBB35_72-.LBB35_1)>>2
	.hword	(.LBB35_219-.LBB35_1)>>2
	.hword	(.LBB35_22-.LBB35_1)>>2
	.hword	(.LBB35_204-.LBB35_1)>>2
	.hword	(.LBB35_209-.LBB35_1)>>2
	.hword	(.LBB35_172-.LBB35_1)>>2
	.hword	(.LBB35_109-.LBB35_1)>>2
	.hword	(.LBB35_177-.LBB35_1)>>2
	.hword	(.LBB35_42-.LBB35_1)>>2
	.hword	(.LBB35_27-.LBB35_1)>>2
	.hword	(.LBB35_12-.LBB35_1)>>2
	.hword	(.LBB35_17-.LBB35_1)>>2
	.hword	(.LBB35_7-.LBB35_1)>>2
	.hword	(.LBB35_214-.LBB35_1)>>2
	.hword	(.LBB35_187-.LBB35_1)>>2
	.hword	(.LBB35_57-.LBB35_1)>>2
	.hword	(.LBB35_123-.LBB35_1)>>2

	.section	.rodata.cst8,"aM",@progbits,8
	.p2align	3, 0x0
.LCPI36_0:
	.byte	99
	.byte	111
	.byte	110
	.byte	116
	.byte	114
	.byte	111
	.byte	108
	.byte	95
.LCPI36_1:
	.byte	100
	.byte	101
	.byte	109
	.byte	111
	.zero	1
	.zero	1
	.zero	1
	.zero	1
.LCPI36_2:
	.byte	105
	.byte	110
	.byte	103
	.byte	32
	.byte	102
	.byte	97
	.byte	105
	.byte	108
.LCPI36_3:
	.byte	101
	.byte	100
	.byte	58
	.byte	32
	.zero	1
	.zero	1
	.zero	1
	.zero	1
.LCPI36_8:
	.byte	32
	.byte	33
	.byte	34
	.byte	35
	.byte	36
	.byte	37
	.byte	38
	.byte	39
	.section	.rodata.cst16,"aM",@progbits,16
	.p2align	4, 0x0
.LCPI36_4:
	.byte	1
	.byte	2
	.byte	4
	.byte	8
	.byte	16
	.byte	32
	.byte	64
	.byte	128
	.byte	1
	.byte	2
	.byte	4
	.byte	8
	.byte	16
	.byte	32
	.byte	64
	.byte	128
.LCPI36_5:
	.byte	16
	.byte	15
	.byte	14
	.byte	13
	.byte	12
	.byte	11
	.byte	10
	.byte	9
	.byte	8
	.byte	7
	.byte	6
	.byte	5
	.byte	4
	.byte	3
	.byte	2
	.byte	1
.LCPI36_6:
	.byte	0
	.byte	1
	.byte	2
	.byte	3
	.byte	4
	.byte	5
	.byte	6
	.byte	7
	.byte	8
	.byte	9
	.byte	10
	.byte	11
	.byte	12
	.byte	13
	.byte	14
	.byte	15
.LCPI36_7:
	.byte	16
	.byte	17
	.byte	18
	.byte	19
	.byte	20
	.byte	21
	.byte	22
	.byte	23
	.byte	24
	.byte	25
	.byte	26
	.byte	27
	.byte	28
	.byte	29
	.byte	30
	.byte	31
	.section	.text.main,"ax",@progbits
	.p2align	2
	.type	main,@function
main:
	stp	x29, x30, [sp, #-96]!
	stp	x28, x27, [sp, #16]
	mov	x29, sp
	stp	x26, x25, [sp, #32]
	stp	x24, x23, [sp, #48]
	stp	x22, x21, [sp, #64]
	stp	x20, x19, [sp, #80]
	sub	sp, sp, #3072
	str	xzr, [sp]
	sub	sp, sp, #2432
	add	x24, sp, #1, lsl #12
	mov	w0, #13
	mov	w1, #1
	str	xzr, [sp]
	add	x24, x24, #64
	bl	__sysv_signal
	movi	v0.2d, #0000000000000000
	sub	x8, x29, #17
	add	x0, sp, #64
	mov	w1, wzr
	mov	w2, #4096
	strb	wzr, [x24, #144]
	str	xzr, [sp, #4192]
	add	x19, sp, #64
	str	x8, [sp, #4200]
	str	q0, [sp, #4160]
	str	q0, [sp, #4176]
	str	q0, [sp, #4208]
	str	q0, [sp, #4224]
	str	q0, [sp, #4240]
	str	xzr, [sp, #4256]
	str	x8, [sp, #4264]
	str	q0, [sp, #4272]
	str	q0, [sp, #4288]
	bl	memset
	mov	x20, xzr
	add	x21, x19, #16
.LBB36_1:
	add	x1, sp, #64
	mov	w0, wzr
	mov	w2, #4096
	bl	read
	tbnz	x0, #63, .LBB36_76
	cbz	x0, .LBB36_84
	ldrb	w8, [x24, #136]
	cmp	x0, #1, lsl #12
	mov	w9, #4096
	csel	x19, x0, x9, lo
	cbnz	w8, .LBB36_55
	movi	v0.2d, #0000000000000000
	ldr	x22, [sp, #4208]
	cmp	x0, #1
	str	q0, [sp, #4464]
	str	q0, [sp, #4448]
	str	q0, [sp, #4432]
	str	q0, [sp, #4416]
	str	q0, [sp, #4400]
	str	q0, [sp, #4384]
	str	q0, [sp, #4368]
	str	q0, [sp, #4352]
	str	q0, [sp, #4336]
	b.ne	.LBB36_7
	ldr	x8, [sp, #4216]
	ldrb	w19, [sp, #64]
	cmp	x8, x22
	b.eq	.LBB36_23
.LBB36_6:
	ldr	x8, [sp, #4200]
	add	x10, x22, #1
	strb	w19, [x8, x22]
	str	x10, [sp, #4208]
	ldr	x9, [sp, #4224]
	sub	x8, x10, x9
	cmp	x8, x9
	b.lo	.LBB36_29
	b	.LBB36_46
.LBB36_7:
	ldr	x23, [sp, #4216]
	sub	x8, x23, x22
	cmp	x19, x8
	b.hi	.LBB36_25
	ldr	x25, [sp, #4200]
	add	x9, sp, #64
	add	x8, x25, x22
	sub	x8, x8, x9
	cmp	x8, x19
	b.hs	.LBB36_27
.LBB36_9:
	cmp	x0, #8
	b.lo	.LBB36_11
	add	x8, sp, #64
	sub	x8, x22, x8
	add	x8, x8, x25
	cmp	x8, #32
	b.hs	.LBB36_14
.LBB36_11:
	mov	x8, xzr
.LBB36_12:
	add	x10, sp, #64
	add	x11, x8, x22
	sub	x9, x19, x8
	add	x8, x10, x8
	add	x10, x25, x11
.LBB36_13:
	ldrb	w11, [x8], #1
	subs	x9, x9, #1
	strb	w11, [x10], #1
	b.ne	.LBB36_13
	b	.LBB36_28
.LBB36_14:
	cmp	x0, #32
	b.hs	.LBB36_16
	mov	x8, xzr
	b	.LBB36_20
.LBB36_16:
	add	x10, x25, x22
	and	x9, x19, #0x18
	and	x8, x19, #0x1fe0
	add	x10, x10, #16
	mov	x11, x21
	and	x12, x19, #0x1fe0
.LBB36_17:
	ldp	q0, q1, [x11, #-16]
	subs	x12, x12, #32
	add	x11, x11, #32
	stp	q0, q1, [x10, #-16]
	add	x10, x10, #32
	b.ne	.LBB36_17
	cmp	x19, x8
	b.eq	.LBB36_28
	cbz	x9, .LBB36_12
.LBB36_20:
	mov	x10, x8
	and	x8, x19, #0x1ff8
	add	x11, sp, #64
	add	x12, x22, x10
	sub	x9, x10, x8
	add	x10, x11, x10
	add	x11, x25, x12
.LBB36_21:
	ldr	d0, [x10], #8
	adds	x9, x9, #8
	str	d0, [x11], #8
	b.ne	.LBB36_21
	cmp	x19, x8
	b.eq	.LBB36_28
	b	.LBB36_12
.LBB36_23:
	add	x8, sp, #1, lsl #12
	mov	w1, #1
	add	x8, x8, #64
	add	x0, x8, #40
	bl	"std_alloc::vec::Vec::grow_amortized::<#0664299079b05c43>"
	cbz	w0, .LBB36_131
	ldr	x22, [sp, #4208]
	b	.LBB36_6
.LBB36_25:
	add	x8, sp, #1, lsl #12
	mov	x25, x0
	mov	x1, x19
	add	x8, x8, #64
	add	x0, x8, #40
	bl	"std_alloc::vec::Vec::grow_amortized::<#0664299079b05c43>"
	cbz	w0, .LBB36_131
	ldr	x22, [sp, #4208]
	ldr	x23, [sp, #4216]
	mov	x0, x25
	ldr	x25, [sp, #4200]
	add	x9, sp, #64
	add	x8, x25, x22
	sub	x8, x8, x9
	cmp	x8, x19
	b.lo	.LBB36_9
.LBB36_27:
	add	x0, x25, x22
	add	x1, sp, #64
	mov	x2, x19
	bl	memmove
.LBB36_28:
	add	x10, x22, x19
	str	x25, [sp, #4200]
	str	x10, [sp, #4208]
	str	x23, [sp, #4216]
	ldr	x9, [sp, #4224]
	sub	x8, x10, x9
	cmp	x8, x9
	b.hs	.LBB36_46
.LBB36_29:
	cmp	x10, x9
	b.eq	.LBB36_44
	ldr	x11, [sp, #4200]
	cmp	x8, #8
	mov	x12, xzr
	b.lo	.LBB36_41
	add	x13, x9, #31
	cmp	x13, #32
	b.lo	.LBB36_41
	cmp	x8, #32
	b.hs	.LBB36_34
	mov	x12, xzr
	b	.LBB36_38
.LBB36_34:
	and	x13, x8, #0x18
	and	x12, x8, #0xffffffffffffffe0
	mov	x14, x11
	and	x15, x8, #0xffffffffffffffe0
.LBB36_35:
	add	x16, x14, x9
	subs	x15, x15, #32
	ldp	q0, q1, [x16]
	stp	q0, q1, [x14], #32
	b.ne	.LBB36_35
	cmp	x8, x12
	b.eq	.LBB36_43
	cbz	x13, .LBB36_41
.LBB36_38:
	mov	x14, x12
	and	x12, x8, #0xfffffffffffffff8
	sub	x13, x14, x12
	add	x14, x11, x14
.LBB36_39:
	ldr	d0, [x14, x9]
	adds	x13, x13, #8
	str	d0, [x14], #8
	b.ne	.LBB36_39
	cmp	x8, x12
	b.eq	.LBB36_43
.LBB36_41:
	add	x13, x12, x9
	add	x11, x11, x12
	sub	x10, x13, x10
.LBB36_42:
	ldrb	w12, [x11, x9]
	adds	x10, x10, #1
	strb	w12, [x11], #1
	b.lo	.LBB36_42
.LBB36_43:
	ldr	x9, [sp, #4208]
	cmp	x9, x8
	b.ls	.LBB36_45
.LBB36_44:
	str	x8, [sp, #4208]
.LBB36_45:
	str	xzr, [sp, #4224]
.LBB36_46:
	add	x0, sp, #1, lsl #12
	add	x1, sp, #1, lsl #12
	add	x3, sp, #1, lsl #12
	add	x0, x0, #240
	add	x1, x1, #64
	add	x2, x24, #104
	add	x3, x3, #208
	str	xzr, [sp, #4248]
	bl	"unftp_control_serve::engine::answer_lines::<#2e66f6333061c70c>"
	ldrb	w8, [x24, #176]
	cbnz	w8, .LBB36_89
	ldr	x8, [sp, #4208]
	ldr	x9, [sp, #4224]
	ldr	x10, [sp, #4256]
	ldrb	w11, [x24, #177]
	sub	x9, x8, x9
	adds	x9, x9, x10
	csinv	x9, x9, xzr, lo
	cmp	w11, #1
	str	x9, [sp, #4288]
	b.eq	.LBB36_90
	ldrb	w8, [x24, #136]
	cmp	w8, #1
	b.eq	.LBB36_84
	add	x20, x20, #1
	cmn	x20, #1
	b.ne	.LBB36_1
	ldr	x8, [sp, #4216]
	cbz	x8, .LBB36_52
	ldr	x0, [sp, #4200]
	bl	rattle_dealloc
.LBB36_52:
	ldr	x8, [sp, #4280]
	cbz	x8, .LBB36_54
	ldr	x0, [sp, #4264]
	bl	rattle_dealloc
.LBB36_54:
	mov	w26, wzr
	mov	x19, xzr
	mov	x22, xzr
	mov	w21, #6
	b	.LBB36_62
.LBB36_55:
	cmp	w8, #2
	b.ne	.LBB36_83
	movi	v0.2d, #0000000000000000
	mov	x25, xzr
	mov	x23, xzr
	mov	x19, xzr
	mov	w21, #5
	stp	q0, q0, [sp]
	stp	q0, q0, [sp, #32]
	ldr	x8, [sp, #4216]
	cbz	x8, .LBB36_58
.LBB36_57:
	ldr	x0, [sp, #4200]
	bl	rattle_dealloc
.LBB36_58:
	ldr	x8, [sp, #4280]
	cbz	x8, .LBB36_60
	ldr	x0, [sp, #4264]
	bl	rattle_dealloc
.LBB36_60:
	cmp	w21, #2
	and	w26, w23, #0xff
	b.lo	.LBB36_81
	ldr	q0, [sp, #48]
	mov	x22, v0.d[1]
.LBB36_62:
	add	x23, sp, #64
	mov	w8, #2
	mov	w1, wzr
	add	x0, x23, #16
	mov	w2, #1120
	str	w8, [sp, #64]
	orr	x20, x23, #0x4
	bl	memset
	movi	v0.2d, #0000000000000000
	add	x8, x23, #1160
	mov	x10, #-1
	mov	w9, #32
	add	x24, x23, #1140
	str	x10, [sp, #1216]
	str	x10, [sp, #4352]
	mov	w10, #8250
	sub	w11, w21, #2
	str	wzr, [sp, #1212]
	add	x23, x23, #1136
	str	q0, [x8]
	adrp	x8, .LCPI36_0
	str	w9, [sp, #1200]
	ldr	d0, [x8, :lo12:.LCPI36_0]
	adrp	x8, .LCPI36_1
	str	xzr, [x24]
	strh	w10, [sp, #80]
	and	x10, x11, #0xff
	adrp	x11, .Lswitch.table.main.207.rel
	add	x11, x11, :lo12:.Lswitch.table.main.207.rel
	ldr	q1, [sp, #1200]
	str	w9, [sp, #1200]
	adrp	x9, .Lswitch.table.main
	add	x9, x9, :lo12:.Lswitch.table.main
	ldrsw	x12, [x11, x10, lsl #2]
	stur	d0, [sp, #68]
	ldr	d0, [x8, :lo12:.LCPI36_1]
	ldr	x25, [x9, x10, lsl #3]
	mov	w8, #14
	add	x27, x11, x12
	str	q1, [sp, #4336]
	str	s0, [sp, #76]
	str	x8, [sp, #1096]
	str	xzr, [x24]
	str	wzr, [sp, #1212]
	b	.LBB36_64
.LBB36_63:
	sub	x25, x25, #1
	add	x8, x9, #1
	strb	w28, [x20, x9]
	str	x8, [sp, #1096]
	cbz	x25, .LBB36_67
.LBB36_64:
	ldrb	w28, [x27], #1
	cmp	x8, #1024
	mov	x9, x8
	b.lo	.LBB36_63
	add	x0, sp, #64
	bl	"std_io::io::buffer::Buffer::flush"
	cbz	w0, .LBB36_72
	ldr	x9, [sp, #1096]
	cmp	x9, #1023
	b.ls	.LBB36_63
	b	.LBB36_72
.LBB36_67:
	ldr	q0, [sp, #4336]
	ldr	x10, [sp, #4352]
	mov	w11, #32
	str	q0, [x23]
	str	x10, [x23, #16]
	ldr	q0, [x23]
	str	w11, [sp, #1200]
	ldr	x11, [sp, #1224]
	str	x10, [sp, #4352]
	mov	x10, #-1
	str	xzr, [x24]
	str	q0, [sp, #4336]
	str	wzr, [x24, #8]
	str	x10, [sp, #1216]
	cbnz	x11, .LBB36_130
	cmp	x9, #1023
	b.lo	.LBB36_71
	add	x0, sp, #64
	bl	"std_io::io::buffer::Buffer::flush"
	cbz	w0, .LBB36_72
	ldr	x8, [sp, #1096]
	cmp	x8, #1023
	b.hi	.LBB36_72
.LBB36_71:
	mov	w9, #10
	strb	w9, [x20, x8]
	add	x8, x8, #1
	str	x8, [sp, #1096]
.LBB36_72:
	ldr	x8, [sp, #4352]
	ldr	q0, [sp, #4336]
	mov	x1, x20
	mov	w2, #1132
	str	x8, [x23, #16]
	ldr	w8, [sp, #64]
	str	q0, [x23]
	str	w8, [sp, #4336]
	add	x8, sp, #1, lsl #12
	add	x8, x8, #240
	orr	x0, x8, #0x4
	bl	memcpy
	add	x0, sp, #1, lsl #12
	add	x0, x0, #240
	bl	"std_io::io::buffer::Buffer::flush"
	cmp	w21, #3
	mov	w0, #1
	b.ne	.LBB36_196
	cmp	w26, #6
	b.ne	.LBB36_196
	cbz	x22, .LBB36_196
	mov	x0, x19
	bl	rattle_dealloc
	b	.LBB36_195
.LBB36_76:
	bl	rattle_errno
	mov	w1, w0
	add	x0, sp, #1, lsl #12
	add	x0, x0, #240
	bl	"std_io::io::error::Error::from_raw_os_error"
	ldr	q0, [sp, #4368]
	ldr	x23, [sp, #4336]
	ldr	x19, [sp, #4344]
	ldr	x8, [sp, #4216]
	ldr	x25, [sp, #4416]
	str	q0, [sp, #32]
	ldr	q0, [sp, #4352]
	str	q0, [sp, #48]
	ldr	q0, [sp, #4400]
	str	q0, [sp, #16]
	ldr	q0, [sp, #4384]
	str	q0, [sp]
	cbz	x8, .LBB36_78
	ldr	x0, [sp, #4200]
	bl	rattle_dealloc
.LBB36_78:
	ldr	x8, [sp, #4280]
	cbz	x8, .LBB36_80
	ldr	x0, [sp, #4264]
	bl	rattle_dealloc
.LBB36_80:
	mov	w21, wzr
	and	w26, w23, #0xff
.LBB36_81:
	add	x27, sp, #64
	mov	w8, #2
	mov	w1, wzr
	add	x0, x27, #32
	mov	w2, #1104
	lsr	x20, x23, #32
	str	w8, [sp, #64]
	bl	memset
	mov	w8, #32
	add	x22, x27, #1140
	str	wzr, [sp, #1212]
	str	w8, [sp, #1200]
	movi	v0.2d, #0000000000000000
	adrp	x10, .LCPI36_0
	str	xzr, [x22]
	add	x11, x27, #1160
	tst	w21, #0x1
	ldr	q1, [sp, #1200]
	mov	w12, #119
	mov	x9, #-1
	str	x9, [sp, #1216]
	str	q1, [sp, #4304]
	ldr	d1, [x10, :lo12:.LCPI36_0]
	adrp	x10, .LCPI36_1
	str	q0, [x11]
	mov	w11, #114
	stur	d1, [sp, #68]
	ldr	d1, [x10, :lo12:.LCPI36_1]
	mov	w10, #8250
	strh	w10, [sp, #80]
	csel	w10, w12, w11, ne
	mov	w12, #105
	strb	w10, [sp, #82]
	mov	w10, #101
	csel	w10, w11, w10, ne
	mov	w11, #97
	str	s1, [sp, #76]
	strb	w10, [sp, #83]
	csel	w10, w12, w11, ne
	adrp	x11, .LCPI36_2
	ldr	d1, [x11, :lo12:.LCPI36_2]
	strb	w10, [sp, #84]
	mov	w10, #100
	mov	w11, #116
	adrp	x12, .LCPI36_3
	str	x9, [sp, #4320]
	csel	w10, w11, w10, ne
	stur	d1, [sp, #86]
	ldr	d1, [x12, :lo12:.LCPI36_3]
	strb	w10, [sp, #85]
	mov	w10, #30
	stur	s1, [sp, #94]
	str	x10, [sp, #1096]
	str	w8, [sp, #1200]
	str	xzr, [x22]
	str	wzr, [sp, #1212]
	str	x9, [sp, #1216]
	str	q0, [sp, #4576]
	str	q0, [sp, #4560]
	str	q0, [sp, #4544]
	str	q0, [sp, #4528]
	str	q0, [sp, #4512]
	str	q0, [sp, #4496]
	str	q0, [sp, #4480]
	str	q0, [sp, #4464]
	str	q0, [sp, #4448]
	str	q0, [sp, #4432]
	str	q0, [sp, #4416]
	str	q0, [sp, #4400]
	str	q0, [sp, #4384]
	str	q0, [sp, #4368]
	str	q0, [sp, #4352]
	str	q0, [sp, #4336]
	cbz	w26, .LBB36_93
	ldr	q0, [sp, #48]
	ubfx	x2, x23, #16, #8
	str	x19, [sp, #4336]
	str	x25, [sp, #4408]
	stur	q0, [x24, #184]
	ldr	q0, [sp, #32]
	stur	q0, [x24, #200]
	ldr	q0, [sp]
	stur	q0, [x24, #216]
	ldr	q0, [sp, #16]
	stur	q0, [x24, #232]
	b	.LBB36_99
.LBB36_83:
	ldr	x8, [sp, #4288]
	adds	x8, x19, x8
	csinv	x8, x8, xzr, lo
	str	x8, [sp, #4288]
.LBB36_84:
	ldr	x8, [sp, #4216]
	cbz	x8, .LBB36_86
.LBB36_85:
	ldr	x0, [sp, #4200]
	bl	rattle_dealloc
.LBB36_86:
	ldr	x8, [sp, #4280]
	cbz	x8, .LBB36_88
	ldr	x0, [sp, #4264]
	bl	rattle_dealloc
.LBB36_88:
	mov	w0, wzr
	b	.LBB36_196
.LBB36_89:
	ldr	q0, [sp, #4384]
	ldrb	w21, [x24, #184]
	mov	w8, #2
	ldr	x23, [sp, #4352]
	ldr	x19, [sp, #4360]
	ldr	x25, [sp, #4432]
	str	q0, [sp, #32]
	ldr	q0, [sp, #4368]
	strb	w8, [x24, #136]
	str	q0, [sp, #48]
	ldr	q0, [sp, #4416]
	str	q0, [sp, #16]
	ldr	q0, [sp, #4400]
	str	q0, [sp]
	ldr	x8, [sp, #4216]
	cbnz	x8, .LBB36_57
	b	.LBB36_58
.LBB36_90:
	strb	wzr, [x24, #32]
	str	xzr, [sp, #4168]
	str	xzr, [sp, #4160]
	cbz	x8, .LBB36_92
	str	xzr, [sp, #4208]
.LBB36_92:
	movi	v0.2d, #0000000000000000
	mov	w8, #1
	stur	xzr, [x24, #96]
	strb	w8, [x24, #136]
	stp	q0, q0, [x24, #64]
	ldr	x8, [sp, #4216]
	cbnz	x8, .LBB36_85
	b	.LBB36_86
.LBB36_93:
	add	x1, sp, #1, lsl #12
	mov	w0, w20
	mov	w2, #256
	add	x1, x1, #240
	add	x19, sp, #1, lsl #12
	add	x19, x19, #240
	bl	__xpg_strerror_r
	mov	x9, xzr
.LBB36_94:
	ldr	q0, [x19], #16
	sub	x8, x9, #16
	cmeq	v0.16b, v0.16b, #0
	umaxv	b1, v0.16b
	fmov	w10, s1
	tbnz	w10, #0, .LBB36_96
	cmn	x9, #240
	mov	x9, x8
	b.ne	.LBB36_94
.LBB36_96:
	adrp	x9, .LCPI36_4
	ldr	q1, [x9, :lo12:.LCPI36_4]
	and	v1.16b, v0.16b, v1.16b
	ext	v2.16b, v1.16b, v1.16b, #8
	zip1	v1.16b, v1.16b, v2.16b
	addv	h1, v1.8h
	fmov	w9, s1
	tst	w9, #0xffff
	b.eq	.LBB36_98
	adrp	x9, .LCPI36_5
	mov	w10, #16
	ldr	q1, [x9, :lo12:.LCPI36_5]
	and	v0.16b, v0.16b, v1.16b
	umaxv	b0, v0.16b
	fmov	w9, s0
	sub	w9, w10, w9
	and	x9, x9, #0xff
	sub	x8, x9, x8
	sub	x2, x8, #16
	b	.LBB36_99
.LBB36_98:
	mov	w2, #256
.LBB36_99:
	add	x0, sp, #1, lsl #12
	add	x1, sp, #1, lsl #12
	str	xzr, [sp, #4168]
	add	x0, x0, #64
	add	x1, x1, #240
	str	xzr, [sp, #4160]
	orr	x19, x27, #0x4
	add	x25, x27, #1136
	str	xzr, [sp, #4176]
	bl	"core::str::utf8::from_utf8"
	ldrb	w8, [x24]
	ldr	x9, [sp, #4168]
	adrp	x10, .Lstatic.2
	add	x10, x10, :lo12:.Lstatic.2
	ldr	x27, [sp, #4176]
	cmp	w8, #0
	csel	x21, x9, x10, eq
	csel	x2, x27, xzr, eq
	cmp	w26, #1
	b.eq	.LBB36_108
	cbnz	w26, .LBB36_110
	mov	w8, #32
	ldr	x9, [sp, #1224]
	str	xzr, [x22]
	str	w8, [sp, #1200]
	mov	x8, #-1
	str	wzr, [x22, #8]
	str	x8, [sp, #1216]
	cbnz	x9, .LBB36_132
	ldr	x8, [sp, #1096]
	cbnz	x2, .LBB36_105
	cmp	x8, #1024
	b.hs	.LBB36_135
	b	.LBB36_137
.LBB36_104:
	sub	x27, x27, #1
	strb	w24, [x19, x8]
	add	x8, x8, #1
	str	x8, [sp, #1096]
	cbz	x27, .LBB36_133
.LBB36_105:
	ldrb	w24, [x21], #1
	cmp	x8, #1024
	b.lo	.LBB36_104
	add	x0, sp, #64
	bl	"std_io::io::buffer::Buffer::flush"
	cbz	w0, .LBB36_192
	ldr	x8, [sp, #1096]
	cmp	x8, #1023
	b.ls	.LBB36_104
	b	.LBB36_192
.LBB36_108:
	adrp	x8, .LCPI36_6
	adrp	x9, .LCPI36_7
	ldr	q0, [x8, :lo12:.LCPI36_6]
	adrp	x8, .LCPI36_8
	ldr	q1, [x9, :lo12:.LCPI36_7]
	ubfx	w9, w23, #8, #8
	ldr	d2, [x8, :lo12:.LCPI36_8]
	mov	w8, #40
	str	q0, [sp, #4160]
	cmp	w9, #40
	str	q1, [sp, #4176]
	str	d2, [sp, #4192]
	strb	w8, [x24, #40]
	b.hi	.LBB36_119
	ubfx	x8, x23, #8, #6
	add	x9, sp, #1, lsl #12
	add	x9, x9, #64
	ldrb	w0, [x9, x8]
	b	.LBB36_120
.LBB36_110:
	ldr	x8, [sp, #1208]
	cbnz	x8, .LBB36_121
	ldr	x8, [sp, #1216]
	cmp	x2, x8
	b.hi	.LBB36_121
	ldr	x8, [sp, #1224]
	cbnz	x8, .LBB36_169
	cbz	x2, .LBB36_123
	ldr	x8, [sp, #1096]
	b	.LBB36_116
.LBB36_115:
	sub	x27, x27, #1
	strb	w20, [x19, x8]
	add	x8, x8, #1
	str	x8, [sp, #1096]
	cbz	x27, .LBB36_123
.LBB36_116:
	ldrb	w20, [x21], #1
	cmp	x8, #1024
	b.lo	.LBB36_115
	add	x0, sp, #64
	bl	"std_io::io::buffer::Buffer::flush"
	cbz	w0, .LBB36_192
	ldr	x8, [sp, #1096]
	cmp	x8, #1023
	b.ls	.LBB36_115
	b	.LBB36_192
.LBB36_119:
	mov	w0, #41
.LBB36_120:
	add	x1, sp, #64
	bl	"std_io::io::kind::ErrorKindDisplay::fmt::<#bf264aed5fa78656>"
	b	.LBB36_122
.LBB36_121:
	add	x0, sp, #64
	mov	x1, x21
	bl	"core::fmt::formatter::Formatter::cut_and_fill::<#bf264aed5fa78656>"
.LBB36_122:
	ldr	q0, [sp, #4304]
	ldr	x9, [sp, #4320]
	and	w8, w0, #0xff
	str	q0, [x25]
	str	x9, [x25, #16]
	tbnz	w8, #0, .LBB36_194
	b	.LBB36_124
.LBB36_123:
	ldr	q0, [sp, #4304]
	ldr	x8, [sp, #4320]
	str	q0, [x25]
	str	x8, [x25, #16]
.LBB36_124:
	mov	w8, #32
	ldr	x9, [x25, #16]
	ldr	q0, [x25]
	str	w8, [sp, #1200]
	ldr	x8, [sp, #1224]
	str	x9, [sp, #4352]
	mov	x9, #-1
	str	q0, [sp, #4336]
	str	xzr, [x22]
	str	wzr, [x22, #8]
	str	x9, [sp, #1216]
	cbnz	x8, .LBB36_168
	ldr	x8, [sp, #1096]
	cmp	x8, #1024
	b.lo	.LBB36_128
	add	x0, sp, #64
	bl	"std_io::io::buffer::Buffer::flush"
	cbz	w0, .LBB36_129
	ldr	x8, [sp, #1096]
	cmp	x8, #1023
	b.hi	.LBB36_129
.LBB36_128:
	mov	w9, #10
	strb	w9, [x19, x8]
	add	x8, x8, #1
	str	x8, [sp, #1096]
.LBB36_129:
	ldr	q0, [sp, #4336]
	ldr	x8, [sp, #4352]
	b	.LBB36_193
.LBB36_130:
	adrp	x1, .Lstatic.45
	add	x1, x1, :lo12:.Lstatic.45
	add	x0, sp, #64
	mov	w2, #1
	bl	"core::fmt::formatter::Formatter::write_indented::<#bf264aed5fa78656>"
	b	.LBB36_72
.LBB36_131:
	movi	v0.2d, #0000000000000000
	mov	w8, #2
	mov	x25, xzr
	mov	x23, xzr
	mov	x19, xzr
	strb	w8, [x24, #136]
	mov	w21, #4
	stp	q0, q0, [sp]
	stp	q0, q0, [sp, #32]
	ldr	x8, [sp, #4216]
	cbnz	x8, .LBB36_57
	b	.LBB36_58
.LBB36_132:
	add	x0, sp, #64
	mov	x1, x21
	bl	"core::fmt::formatter::Formatter::write_indented::<#bf264aed5fa78656>"
	and	w8, w0, #0xff
	tbnz	w8, #0, .LBB36_192
.LBB36_133:
	mov	w8, #32
	ldr	x9, [sp, #1224]
	str	xzr, [x22]
	str	w8, [sp, #1200]
	mov	x8, #-1
	str	wzr, [x22, #8]
	str	x8, [sp, #1216]
	cbnz	x9, .LBB36_170
	ldr	x8, [sp, #1096]
	cmp	x8, #1024
	b.lo	.LBB36_137
.LBB36_135:
	add	x0, sp, #64
	bl	"std_io::io::buffer::Buffer::flush"
	cbz	w0, .LBB36_192
	ldr	x8, [sp, #1096]
	cmp	x8, #1023
	b.hi	.LBB36_192
.LBB36_137:
	mov	w9, #32
	strb	w9, [x19, x8]
	cmp	x8, #1023
	add	x9, x8, #1
	str	x9, [sp, #1096]
	b.ne	.LBB36_140
	add	x0, sp, #64
	bl	"std_io::io::buffer::Buffer::flush"
	cbz	w0, .LBB36_192
	ldr	x9, [sp, #1096]
	cmp	x9, #1023
	b.hi	.LBB36_192
.LBB36_140:
	mov	w8, #40
	strb	w8, [x19, x9]
	cmp	x9, #1023
	add	x8, x9, #1
	str	x8, [sp, #1096]
	b.lo	.LBB36_143
	add	x0, sp, #64
	bl	"std_io::io::buffer::Buffer::flush"
	cbz	w0, .LBB36_192
	ldr	x8, [sp, #1096]
	cmp	x8, #1023
	b.hi	.LBB36_192
.LBB36_143:
	mov	w9, #111
	strb	w9, [x19, x8]
	cmp	x8, #1023
	add	x9, x8, #1
	str	x9, [sp, #1096]
	b.lo	.LBB36_146
	add	x0, sp, #64
	bl	"std_io::io::buffer::Buffer::flush"
	cbz	w0, .LBB36_192
	ldr	x9, [sp, #1096]
	cmp	x9, #1023
	b.hi	.LBB36_192
.LBB36_146:
	mov	w8, #115
	strb	w8, [x19, x9]
	cmp	x9, #1023
	add	x8, x9, #1
	str	x8, [sp, #1096]
	b.lo	.LBB36_149
	add	x0, sp, #64
	bl	"std_io::io::buffer::Buffer::flush"
	cbz	w0, .LBB36_192
	ldr	x8, [sp, #1096]
	cmp	x8, #1023
	b.hi	.LBB36_192
.LBB36_149:
	mov	w9, #32
	strb	w9, [x19, x8]
	cmp	x8, #1023
	add	x9, x8, #1
	str	x9, [sp, #1096]
	b.lo	.LBB36_152
	add	x0, sp, #64
	bl	"std_io::io::buffer::Buffer::flush"
	cbz	w0, .LBB36_192
	ldr	x9, [sp, #1096]
	cmp	x9, #1023
	b.hi	.LBB36_192
.LBB36_152:
	mov	w8, #101
	strb	w8, [x19, x9]
	cmp	x9, #1023
	add	x8, x9, #1
	str	x8, [sp, #1096]
	b.lo	.LBB36_155
	add	x0, sp, #64
	bl	"std_io::io::buffer::Buffer::flush"
	cbz	w0, .LBB36_192
	ldr	x8, [sp, #1096]
	cmp	x8, #1023
	b.hi	.LBB36_192
.LBB36_155:
	mov	w21, #114
	add	x9, x8, #1
	cmp	x8, #1023
	strb	w21, [x19, x8]
	str	x9, [sp, #1096]
	b.lo	.LBB36_158
	add	x0, sp, #64
	bl	"std_io::io::buffer::Buffer::flush"
	cbz	w0, .LBB36_192
	ldr	x9, [sp, #1096]
	cmp	x9, #1023
	b.hi	.LBB36_192
.LBB36_158:
	add	x8, x9, #1
	cmp	x9, #1023
	strb	w21, [x19, x9]
	str	x8, [sp, #1096]
	b.lo	.LBB36_161
	add	x0, sp, #64
	bl	"std_io::io::buffer::Buffer::flush"
	cbz	w0, .LBB36_192
	ldr	x8, [sp, #1096]
	cmp	x8, #1023
	b.hi	.LBB36_192
.LBB36_161:
	mov	w9, #111
	strb	w9, [x19, x8]
	cmp	x8, #1023
	add	x9, x8, #1
	str	x9, [sp, #1096]
	b.lo	.LBB36_164
	add	x0, sp, #64
	bl	"std_io::io::buffer::Buffer::flush"
	cbz	w0, .LBB36_192
	ldr	x9, [sp, #1096]
	cmp	x9, #1023
	b.hi	.LBB36_192
.LBB36_164:
	mov	w8, #114
	strb	w8, [x19, x9]
	cmp	x9, #1023
	add	x8, x9, #1
	str	x8, [sp, #1096]
	b.lo	.LBB36_167
	add	x0, sp, #64
	bl	"std_io::io::buffer::Buffer::flush"
	cbz	w0, .LBB36_192
	ldr	x8, [sp, #1096]
	cmp	x8, #1023
	b.hi	.LBB36_192
.LBB36_167:
	mov	w9, #32
	strb	w9, [x19, x8]
	add	x8, x8, #1
	str	x8, [sp, #1096]
	b	.LBB36_171
.LBB36_168:
	adrp	x1, .Lstatic.45
	add	x1, x1, :lo12:.Lstatic.45
	add	x0, sp, #64
	mov	w2, #1
	bl	"core::fmt::formatter::Formatter::write_indented::<#bf264aed5fa78656>"
	b	.LBB36_129
.LBB36_169:
	add	x0, sp, #64
	mov	x1, x21
	bl	"core::fmt::formatter::Formatter::write_indented::<#bf264aed5fa78656>"
	b	.LBB36_122
.LBB36_170:
	adrp	x1, .Lstatic.116
	add	x1, x1, :lo12:.Lstatic.116
	add	x0, sp, #64
	mov	w2, #11
	bl	"core::fmt::formatter::Formatter::write_indented::<#bf264aed5fa78656>"
	and	w8, w0, #0xff
	tbnz	w8, #0, .LBB36_192
.LBB36_171:
	mov	w8, #32
	cmp	w20, #0
	str	xzr, [x22]
	str	w8, [sp, #1200]
	mov	x8, #-1
	str	x8, [sp, #1216]
	cneg	w8, w20, mi
	cmp	w8, #100
	str	wzr, [x22, #8]
	str	xzr, [sp, #4168]
	str	xzr, [sp, #4160]
	str	xzr, [sp, #4176]
	b.lo	.LBB36_175
	mov	x9, xzr
.LBB36_173:
	mov	x11, #62915
	mov	x10, x8
	lsr	x8, x8, #2
	movk	x11, #23592, lsl #16
	mov	w12, #205
	movk	x11, #49807, lsl #32
	movk	x11, #10485, lsl #48
	umulh	x8, x8, x11
	mov	w11, #100
	lsr	x8, x8, #2
	msub	w11, w8, w11, w10
	lsr	x10, x10, #4
	cmp	x10, #624
	and	w13, w11, #0xff
	mul	w12, w13, w12
	mov	w13, #10
	lsr	w12, w12, #11
	msub	w11, w12, w13, w11
	add	x13, sp, #1, lsl #12
	orr	w10, w12, #0x30
	add	x13, x13, #64
	add	x13, x13, x9
	sub	x9, x9, #2
	orr	w11, w11, #0x30
	strb	w10, [x13, #22]
	strb	w11, [x13, #23]
	b.hi	.LBB36_173
	add	x9, x9, #24
	b	.LBB36_176
.LBB36_175:
	mov	w9, #24
.LBB36_176:
	cmp	x8, #10
	b.lo	.LBB36_178
	and	w10, w8, #0xff
	mov	w11, #205
	mul	w10, w10, w11
	mov	w11, #10
	lsr	w10, w10, #11
	msub	w8, w10, w11, w8
	add	x11, sp, #1, lsl #12
	orr	w10, w10, #0x30
	add	x11, x11, #64
	add	x11, x11, x9
	sub	x9, x9, #2
	orr	w8, w8, #0x30
	sturb	w10, [x11, #-2]
	sturb	w8, [x11, #-1]
	b	.LBB36_179
.LBB36_178:
	add	x10, sp, #1, lsl #12
	sub	x9, x9, #1
	orr	w8, w8, #0x30
	add	x10, x10, #64
	strb	w8, [x10, x9]
.LBB36_179:
	ldr	x10, [sp, #1224]
	sub	x11, x9, #1
	add	x8, sp, #1, lsl #12
	cmp	x23, #0
	add	x8, x8, #64
	mov	w12, #45
	csel	x20, x11, x9, mi
	strb	w12, [x8, x11]
	cbnz	x10, .LBB36_191
	cmp	x20, #24
	b.ne	.LBB36_186
.LBB36_181:
	mov	w8, #32
	ldr	x9, [sp, #1224]
	str	xzr, [x22]
	str	w8, [sp, #1200]
	mov	x8, #-1
	str	wzr, [x22, #8]
	str	x8, [sp, #1216]
	cbnz	x9, .LBB36_197
	ldr	x8, [sp, #1096]
	cmp	x8, #1024
	b.lo	.LBB36_185
	add	x0, sp, #64
	bl	"std_io::io::buffer::Buffer::flush"
	cbz	w0, .LBB36_192
	ldr	x8, [sp, #1096]
	cmp	x8, #1023
	b.hi	.LBB36_192
.LBB36_185:
	mov	w9, #41
	strb	w9, [x19, x8]
	ldr	q0, [sp, #4304]
	ldr	x9, [sp, #4320]
	add	x8, x8, #1
	str	x8, [sp, #1096]
	str	q0, [x25]
	str	x9, [x25, #16]
	b	.LBB36_124
.LBB36_186:
	ldr	x8, [sp, #1096]
	b	.LBB36_188
.LBB36_187:
	add	x20, x20, #1
	strb	w21, [x19, x8]
	add	x8, x8, #1
	cmp	x20, #24
	str	x8, [sp, #1096]
	b.eq	.LBB36_181
.LBB36_188:
	add	x9, sp, #1, lsl #12
	cmp	x8, #1024
	add	x9, x9, #64
	ldrb	w21, [x9, x20]
	b.lo	.LBB36_187
	add	x0, sp, #64
	bl	"std_io::io::buffer::Buffer::flush"
	cbz	w0, .LBB36_192
	ldr	x8, [sp, #1096]
	cmp	x8, #1023
	b.ls	.LBB36_187
	b	.LBB36_192
.LBB36_191:
	mov	w9, #24
	add	x0, sp, #64
	add	x1, x8, x20
	sub	x2, x9, x20
	bl	"core::fmt::formatter::Formatter::write_indented::<#bf264aed5fa78656>"
	and	w8, w0, #0xff
	tbz	w8, #0, .LBB36_181
.LBB36_192:
	ldr	q0, [sp, #4304]
	ldr	x8, [sp, #4320]
.LBB36_193:
	str	q0, [x25]
	str	x8, [x25, #16]
.LBB36_194:
	ldr	w8, [sp, #64]
	mov	x1, x19
	mov	w2, #1132
	str	w8, [sp, #4336]
	add	x8, sp, #1, lsl #12
	add	x8, x8, #240
	orr	x0, x8, #0x4
	bl	memcpy
	add	x0, sp, #1, lsl #12
	add	x0, x0, #240
	bl	"std_io::io::buffer::Buffer::flush"
.LBB36_195:
	mov	w0, #1
.LBB36_196:
	add	sp, sp, #1, lsl #12
	add	sp, sp, #1408
	ldp	x20, x19, [sp, #80]
	ldp	x22, x21, [sp, #64]
	ldp	x24, x23, [sp, #48]
	ldp	x26, x25, [sp, #32]
	ldp	x28, x27, [sp, #16]
	ldp	x29, x30, [sp], #96
	ret
.LBB36_197:
	adrp	x1, .Lstatic.117
	add	x1, x1, :lo12:.Lstatic.117
	add	x0, sp, #64
	mov	w2, #1
	bl	"core::fmt::formatter::Formatter::write_indented::<#bf264aed5fa78656>"
	b	.LBB36_122
.Lfunc_end36:
	.size	main, .Lfunc_end36-main

	.type	.Lstatic.2,@object
	.section	.rodata..Lstatic.2,"a",@progbits
.Lstatic.2:
	.size	.Lstatic.2, 0

	.type	.Lstatic.45,@object
	.section	.rodata..Lstatic.45,"a",@progbits
.Lstatic.45:
	.byte	10
	.size	.Lstatic.45, 1

	.type	.Lstatic.50,@object
	.section	.rodata..Lstatic.50,"a",@progbits
.Lstatic.50:
	.ascii	"UTF8 ON"
	.size	.Lstatic.50, 7

	.type	.Lstatic.51,@object
	.section	.rodata..Lstatic.51,"a",@progbits
.Lstatic.51:
	.ascii	"utf8 on"
	.size	.Lstatic.51, 7

	.type	.Lstatic.52,@object
	.section	.rodata.cst8,"aM",@progbits,8
.Lstatic.52:
	.ascii	"UTF8 OFF"
	.size	.Lstatic.52, 8

	.type	.Lstatic.53,@object
.Lstatic.53:
	.ascii	"utf8 off"
	.size	.Lstatic.53, 8

	.type	.Lstatic.54,@object
	.section	.rodata..Lstatic.54,"a",@progbits
.Lstatic.54:
	.ascii	"OK"
	.size	.Lstatic.54, 2

	.type	.Lstatic.55,@object
	.section	.rodata..Lstatic.55,"a",@progbits
.Lstatic.55:
	.ascii	"Bye"
	.size	.Lstatic.55, 3

	.type	.Lstatic.58,@object
	.section	.rodata..Lstatic.58,"a",@progbits
.Lstatic.58:
	.ascii	"TLS/SSL not configured"
	.size	.Lstatic.58, 22

	.type	.Lstatic.63,@object
	.section	.data.rel.ro..Lstatic.63,"aw",@progbits
	.p2align	3, 0x0
.Lstatic.63:
	.xword	.Lstatic.63+64
	.asciz	"\004\000\000\000\000\000\000"
	.xword	.Lstatic.63+68
	.asciz	"\004\000\000\000\000\000\000"
	.xword	.Lstatic.63+72
	.asciz	"\004\000\000\000\000\000\000"
	.xword	.Lstatic.63+76
	.ascii	"\004\000\000\000\000\000\000\000EPSVMDTMMLSDMLST"
	.size	.Lstatic.63, 80

	.type	.Lstatic.67,@object
	.section	.data.rel.ro..Lstatic.67,"aw",@progbits
	.p2align	3, 0x0
.Lstatic.67:
	.xword	.Lstatic.67+32
	.asciz	"\004\000\000\000\000\000\000"
	.xword	.Lstatic.67+36
	.ascii	"\004\000\000\000\000\000\000\000SIZEUTF8"
	.size	.Lstatic.67, 40

	.type	.Lstatic.68,@object
	.section	.data.rel.ro..Lstatic.68,"aw",@progbits
	.p2align	3, 0x0
.Lstatic.68:
	.xword	.Lstatic.68+16
	.asciz	"\025\000\000\000\000\000\000\000Extensions supported:\000\000"
	.size	.Lstatic.68, 40

	.type	.Lstatic.69,@object
	.section	.data.rel.ro..Lstatic.69,"aw",@progbits
	.p2align	3, 0x0
.Lstatic.69:
	.xword	.Lstatic.69+16
	.asciz	"\003\000\000\000\000\000\000\000END\000\000\000\000"
	.size	.Lstatic.69, 24

	.type	.Lstatic.70,@object
	.section	.rodata..Lstatic.70,"a",@progbits
.Lstatic.70:
	.byte	32
	.size	.Lstatic.70, 1

	.type	.Lstatic.71,@object
	.section	.rodata.cst4,"aM",@progbits,4
.Lstatic.71:
	.zero	4,32
	.size	.Lstatic.71, 4

	.type	.Lstatic.73,@object
	.section	.rodata..Lstatic.73,"a",@progbits
.Lstatic.73:
	.ascii	"Entering Extended Passive Mode (|||"
	.size	.Lstatic.73, 35

	.type	.Lstatic.74,@object
	.section	.rodata..Lstatic.74,"a",@progbits
.Lstatic.74:
	.ascii	"|)"
	.size	.Lstatic.74, 2

	.type	.Lstatic.76,@object
	.section	.data.rel.ro..Lstatic.76,"aw",@progbits
	.p2align	3, 0x0
.Lstatic.76:
	.xword	.Lstatic.76+48
	.asciz	"\005\000\000\000\000\000\000"
	.xword	.Lstatic.76+53
	.asciz	"\033\000\000\000\000\000\000"
	.xword	.Lstatic.76+80
	.asciz	"#\000\000\000\000\000\000\000Help:Powered by libunftp: 0.24.0View the docs at: https://unftp.rs/\000\000\000\000"
	.size	.Lstatic.76, 120

	.type	.Lstatic.77,@object
	.section	.rodata..Lstatic.77,"a",@progbits
.Lstatic.77:
	.ascii	"Using Stream transfer mode"
	.size	.Lstatic.77, 26

	.type	.Lstatic.78,@object
	.section	.rodata..Lstatic.78,"a",@progbits
.Lstatic.78:
	.ascii	"Only Stream transfer mode is supported"
	.size	.Lstatic.78, 38

	.type	.Lstatic.79,@object
	.section	.rodata..Lstatic.79,"a",@progbits
.Lstatic.79:
	.ascii	"Always in UTF-8 mode."
	.size	.Lstatic.79, 21

	.type	.Lstatic.80,@object
	.section	.rodata..Lstatic.80,"a",@progbits
.Lstatic.80:
	.ascii	"Non UTF-8 mode not supported"
	.size	.Lstatic.80, 28

	.type	.Lstatic.81,@object
	.section	.rodata..Lstatic.81,"a",@progbits
.Lstatic.81:
	.ascii	"In File structure mode"
	.size	.Lstatic.81, 22

	.type	.Lstatic.82,@object
	.section	.rodata..Lstatic.82,"a",@progbits
.Lstatic.82:
	.ascii	"Only File structure mode is supported"
	.size	.Lstatic.82, 37

	.type	.Lstatic.83,@object
	.section	.rodata..Lstatic.83,"a",@progbits
.Lstatic.83:
	.ascii	"type=file;size=1234;modify=20231201120000;"
	.size	.Lstatic.83, 42

	.type	.Lstatic.84,@object
	.section	.rodata..Lstatic.84,"a",@progbits
.Lstatic.84:
	.byte	47
	.size	.Lstatic.84, 1

	.type	.Lstatic.85,@object
	.section	.rodata.cst8,"aM",@progbits,8
.Lstatic.85:
	.ascii	" Listing"
	.size	.Lstatic.85, 8

	.type	.Lstatic.86,@object
	.section	.rodata..Lstatic.86,"a",@progbits
.Lstatic.86:
	.ascii	"End"
	.size	.Lstatic.86, 3

	.type	.Lstatic.88,@object
	.section	.rodata..Lstatic.88,"a",@progbits
.Lstatic.88:
	.ascii	"Not implemented"
	.size	.Lstatic.88, 15

	.type	.Lstatic.89,@object
	.section	.rodata..Lstatic.89,"a",@progbits
.Lstatic.89:
	.ascii	"Invalid command"
	.size	.Lstatic.89, 15

	.type	.Lstatic.90,@object
	.section	.rodata.cst32,"aM",@progbits,32
.Lstatic.90:
	.ascii	"Non-UTF8 character while parsing"
	.size	.Lstatic.90, 32

	.type	.Lstatic.91,@object
	.section	.rodata..Lstatic.91,"a",@progbits
.Lstatic.91:
	.ascii	"Invalid end-of-line"
	.size	.Lstatic.91, 19

	.type	.Lstatic.92,@object
	.section	.rodata..Lstatic.92,"a",@progbits
.Lstatic.92:
	.ascii	"Out of memory"
	.size	.Lstatic.92, 13

	.type	.Lstatic.93,@object
	.section	.rodata..Lstatic.93,"a",@progbits
.Lstatic.93:
	.ascii	"Unknown command: "
	.size	.Lstatic.93, 17

	.type	.Lstatic.94,@object
	.section	.rodata..Lstatic.94,"a",@progbits
.Lstatic.94:
	.ascii	"Failed to perform IO"
	.size	.Lstatic.94, 20

	.type	.Lstatic.95,@object
	.section	.rodata..Lstatic.95,"a",@progbits
.Lstatic.95:
	.ascii	"Failed to parse command"
	.size	.Lstatic.95, 23

	.type	.Lstatic.96,@object
	.section	.rodata..Lstatic.96,"a",@progbits
.Lstatic.96:
	.ascii	"Internal Server Error"
	.size	.Lstatic.96, 21

	.type	.Lstatic.97,@object
	.section	.rodata..Lstatic.97,"a",@progbits
.Lstatic.97:
	.ascii	"Something went wrong when trying to authenticate"
	.size	.Lstatic.97, 48

	.type	.Lstatic.98,@object
	.section	.rodata..Lstatic.98,"a",@progbits
.Lstatic.98:
	.ascii	"Failed to map event from data channel"
	.size	.Lstatic.98, 37

	.type	.Lstatic.99,@object
	.section	.rodata..Lstatic.99,"a",@progbits
.Lstatic.99:
	.ascii	"Non-UTF8 character in command"
	.size	.Lstatic.99, 29

	.type	.Lstatic.101,@object
	.section	.rodata..Lstatic.101,"a",@progbits
.Lstatic.101:
	.ascii	"Invalid command (invalid parameter)"
	.size	.Lstatic.101, 35

	.type	.Lstatic.102,@object
	.section	.rodata..Lstatic.102,"a",@progbits
.Lstatic.102:
	.ascii	"Encountered read timeout on the control channel"
	.size	.Lstatic.102, 47

	.type	.Lstatic.103,@object
	.section	.rodata.cst32,"aM",@progbits,32
.Lstatic.103:
	.ascii	"Control channel in illegal state"
	.size	.Lstatic.103, 32

	.type	.Lstatic.104,@object
	.section	.rodata..Lstatic.104,"a",@progbits
.Lstatic.104:
	.ascii	"Line too long"
	.size	.Lstatic.104, 13

	.type	.Lstatic.106,@object
	.section	.rodata..Lstatic.106,"a",@progbits
.Lstatic.106:
	.ascii	"\r\n"
	.size	.Lstatic.106, 2

	.type	.Lstatic.110,@object
	.section	.rodata..Lstatic.110,"a",@progbits
.Lstatic.110:
	.ascii	"the writer took nothing"
	.size	.Lstatic.110, 23

	.type	.Lstatic.111,@object
	.section	.rodata..Lstatic.111,"a",@progbits
.Lstatic.111:
	.ascii	"the handler failed"
	.size	.Lstatic.111, 18

	.type	.Lstatic.112,@object
	.section	.rodata..Lstatic.112,"a",@progbits
.Lstatic.112:
	.ascii	"out of memory"
	.size	.Lstatic.112, 13

	.type	.Lstatic.113,@object
	.section	.rodata..Lstatic.113,"a",@progbits
.Lstatic.113:
	.ascii	"the engine has stopped"
	.size	.Lstatic.113, 22

	.type	.Lstatic.114,@object
	.section	.rodata..Lstatic.114,"a",@progbits
.Lstatic.114:
	.ascii	"too many reads"
	.size	.Lstatic.114, 14

	.type	.Lstatic.116,@object
	.section	.rodata..Lstatic.116,"a",@progbits
.Lstatic.116:
	.ascii	" (os error "
	.size	.Lstatic.116, 11

	.type	.Lstatic.117,@object
	.section	.rodata..Lstatic.117,"a",@progbits
.Lstatic.117:
	.byte	41
	.size	.Lstatic.117, 1

	.type	.Lstatic.118,@object
	.section	.rodata.cst16,"aM",@progbits,16
.Lstatic.118:
	.ascii	"entity not found"
	.size	.Lstatic.118, 16

	.type	.Lstatic.119,@object
	.section	.rodata..Lstatic.119,"a",@progbits
.Lstatic.119:
	.ascii	"permission denied"
	.size	.Lstatic.119, 17

	.type	.Lstatic.120,@object
	.section	.rodata..Lstatic.120,"a",@progbits
.Lstatic.120:
	.ascii	"connection refused"
	.size	.Lstatic.120, 18

	.type	.Lstatic.121,@object
	.section	.rodata.cst16,"aM",@progbits,16
.Lstatic.121:
	.ascii	"connection reset"
	.size	.Lstatic.121, 16

	.type	.Lstatic.122,@object
.Lstatic.122:
	.ascii	"host unreachable"
	.size	.Lstatic.122, 16

	.type	.Lstatic.123,@object
	.section	.rodata..Lstatic.123,"a",@progbits
.Lstatic.123:
	.ascii	"network unreachable"
	.size	.Lstatic.123, 19

	.type	.Lstatic.124,@object
	.section	.rodata..Lstatic.124,"a",@progbits
.Lstatic.124:
	.ascii	"connection aborted"
	.size	.Lstatic.124, 18

	.type	.Lstatic.125,@object
	.section	.rodata..Lstatic.125,"a",@progbits
.Lstatic.125:
	.ascii	"not connected"
	.size	.Lstatic.125, 13

	.type	.Lstatic.126,@object
	.section	.rodata..Lstatic.126,"a",@progbits
.Lstatic.126:
	.ascii	"address in use"
	.size	.Lstatic.126, 14

	.type	.Lstatic.127,@object
	.section	.rodata..Lstatic.127,"a",@progbits
.Lstatic.127:
	.ascii	"address not available"
	.size	.Lstatic.127, 21

	.type	.Lstatic.128,@object
	.section	.rodata..Lstatic.128,"a",@progbits
.Lstatic.128:
	.ascii	"network down"
	.size	.Lstatic.128, 12

	.type	.Lstatic.129,@object
	.section	.rodata..Lstatic.129,"a",@progbits
.Lstatic.129:
	.ascii	"broken pipe"
	.size	.Lstatic.129, 11

	.type	.Lstatic.130,@object
	.section	.rodata..Lstatic.130,"a",@progbits
.Lstatic.130:
	.ascii	"entity already exists"
	.size	.Lstatic.130, 21

	.type	.Lstatic.131,@object
	.section	.rodata..Lstatic.131,"a",@progbits
.Lstatic.131:
	.ascii	"operation would block"
	.size	.Lstatic.131, 21

	.type	.Lstatic.132,@object
	.section	.rodata..Lstatic.132,"a",@progbits
.Lstatic.132:
	.ascii	"not a directory"
	.size	.Lstatic.132, 15

	.type	.Lstatic.133,@object
	.section	.rodata..Lstatic.133,"a",@progbits
.Lstatic.133:
	.ascii	"is a directory"
	.size	.Lstatic.133, 14

	.type	.Lstatic.134,@object
	.section	.rodata..Lstatic.134,"a",@progbits
.Lstatic.134:
	.ascii	"directory not empty"
	.size	.Lstatic.134, 19

	.type	.Lstatic.135,@object
	.section	.rodata..Lstatic.135,"a",@progbits
.Lstatic.135:
	.ascii	"read-only filesystem or storage medium"
	.size	.Lstatic.135, 38

	.type	.Lstatic.136,@object
	.section	.rodata..Lstatic.136,"a",@progbits
.Lstatic.136:
	.ascii	"filesystem loop or indirection limit (e.g. symlink loop)"
	.size	.Lstatic.136, 56

	.type	.Lstatic.137,@object
	.section	.rodata..Lstatic.137,"a",@progbits
.Lstatic.137:
	.ascii	"stale network file handle"
	.size	.Lstatic.137, 25

	.type	.Lstatic.138,@object
	.section	.rodata..Lstatic.138,"a",@progbits
.Lstatic.138:
	.ascii	"invalid input parameter"
	.size	.Lstatic.138, 23

	.type	.Lstatic.139,@object
	.section	.rodata..Lstatic.139,"a",@progbits
.Lstatic.139:
	.ascii	"invalid data"
	.size	.Lstatic.139, 12

	.type	.Lstatic.140,@object
	.section	.rodata..Lstatic.140,"a",@progbits
.Lstatic.140:
	.ascii	"timed out"
	.size	.Lstatic.140, 9

	.type	.Lstatic.141,@object
	.section	.rodata..Lstatic.141,"a",@progbits
.Lstatic.141:
	.ascii	"write zero"
	.size	.Lstatic.141, 10

	.type	.Lstatic.142,@object
	.section	.rodata.cst16,"aM",@progbits,16
.Lstatic.142:
	.ascii	"no storage space"
	.size	.Lstatic.142, 16

	.type	.Lstatic.143,@object
	.section	.rodata..Lstatic.143,"a",@progbits
.Lstatic.143:
	.ascii	"seek on unseekable file"
	.size	.Lstatic.143, 23

	.type	.Lstatic.144,@object
	.section	.rodata..Lstatic.144,"a",@progbits
.Lstatic.144:
	.ascii	"quota exceeded"
	.size	.Lstatic.144, 14

	.type	.Lstatic.145,@object
	.section	.rodata..Lstatic.145,"a",@progbits
.Lstatic.145:
	.ascii	"file too large"
	.size	.Lstatic.145, 14

	.type	.Lstatic.146,@object
	.section	.rodata..Lstatic.146,"a",@progbits
.Lstatic.146:
	.ascii	"resource busy"
	.size	.Lstatic.146, 13

	.type	.Lstatic.147,@object
	.section	.rodata..Lstatic.147,"a",@progbits
.Lstatic.147:
	.ascii	"executable file busy"
	.size	.Lstatic.147, 20

	.type	.Lstatic.148,@object
	.section	.rodata.cst8,"aM",@progbits,8
.Lstatic.148:
	.ascii	"deadlock"
	.size	.Lstatic.148, 8

	.type	.Lstatic.149,@object
	.section	.rodata..Lstatic.149,"a",@progbits
.Lstatic.149:
	.ascii	"cross-device link or rename"
	.size	.Lstatic.149, 27

	.type	.Lstatic.150,@object
	.section	.rodata..Lstatic.150,"a",@progbits
.Lstatic.150:
	.ascii	"too many links"
	.size	.Lstatic.150, 14

	.type	.Lstatic.151,@object
	.section	.rodata.cst16,"aM",@progbits,16
.Lstatic.151:
	.ascii	"invalid filename"
	.size	.Lstatic.151, 16

	.type	.Lstatic.152,@object
	.section	.rodata..Lstatic.152,"a",@progbits
.Lstatic.152:
	.ascii	"argument list too long"
	.size	.Lstatic.152, 22

	.type	.Lstatic.153,@object
	.section	.rodata..Lstatic.153,"a",@progbits
.Lstatic.153:
	.ascii	"operation interrupted"
	.size	.Lstatic.153, 21

	.type	.Lstatic.154,@object
	.section	.rodata..Lstatic.154,"a",@progbits
.Lstatic.154:
	.ascii	"unsupported"
	.size	.Lstatic.154, 11

	.type	.Lstatic.155,@object
	.section	.rodata..Lstatic.155,"a",@progbits
.Lstatic.155:
	.ascii	"unexpected end of file"
	.size	.Lstatic.155, 22

	.type	.Lstatic.156,@object
	.section	.rodata..Lstatic.156,"a",@progbits
.Lstatic.156:
	.ascii	"in progress"
	.size	.Lstatic.156, 11

	.type	.Lstatic.157,@object
	.section	.rodata..Lstatic.157,"a",@progbits
.Lstatic.157:
	.ascii	"other error"
	.size	.Lstatic.157, 11

	.type	.Lstatic.158,@object
	.section	.rodata..Lstatic.158,"a",@progbits
.Lstatic.158:
	.ascii	"uncategorized error"
	.size	.Lstatic.158, 19

	.type	.Lswitch.table.main,@object
	.section	.rodata..Lswitch.table.main,"a",@progbits
	.p2align	3, 0x0
.Lswitch.table.main:
	.xword	23
	.xword	18
	.xword	13
	.xword	22
	.xword	14
	.size	.Lswitch.table.main, 40

	.type	.Lswitch.table.main.207.rel,@object
	.section	.rodata..Lswitch.table.main.207.rel,"a",@progbits
	.p2align	2, 0x0
.Lswitch.table.main.207.rel:
	.word	.Lstatic.110-.Lswitch.table.main.207.rel
	.word	.Lstatic.111-.Lswitch.table.main.207.rel
	.word	.Lstatic.112-.Lswitch.table.main.207.rel
	.word	.Lstatic.113-.Lswitch.table.main.207.rel
	.word	.Lstatic.114-.Lswitch.table.main.207.rel
	.size	.Lswitch.table.main.207.rel, 20

	.ident	"rattle logic=dac8208d650f15bf3e2dc313a14fa4c783a3acf887bdfab66e1714b038d9e11b"
	.section	.text.rattle_alloc,"ax",@progbits
	.p2align	2
	.type	rattle_alloc,@function
rattle_alloc:
	stp	x29, x30, [sp, #-16]!
	cmp	x0, #0
	mov	x29, sp
	csel	x0, x1, x0, eq
	bl	malloc
	cmp	x0, #0
	adrp	x9, none
	add	x9, x9, :lo12:none
	cset	w8, ne
	csel	x1, x0, x9, ne
	mov	x0, x8
	ldp	x29, x30, [sp], #16
	ret
.Lmemory_func_end0:
	.size	rattle_alloc, .Lmemory_func_end0-rattle_alloc

	.section	.text.rattle_realloc,"ax",@progbits
	.p2align	2
	.type	rattle_realloc,@function
rattle_realloc:
	stp	x29, x30, [sp, #-16]!
	cmp	x2, #0
	mov	x29, sp
	csel	x1, x3, x2, eq
	bl	realloc
	cmp	x0, #0
	adrp	x9, none
	add	x9, x9, :lo12:none
	cset	w8, ne
	csel	x1, x0, x9, ne
	mov	x0, x8
	ldp	x29, x30, [sp], #16
	ret
.Lmemory_func_end1:
	.size	rattle_realloc, .Lmemory_func_end1-rattle_realloc

	.section	.text.rattle_dealloc,"ax",@progbits
	.p2align	2
	.type	rattle_dealloc,@function
rattle_dealloc:
	b	free
.Lmemory_func_end2:
	.size	rattle_dealloc, .Lmemory_func_end2-rattle_dealloc

	.type	none,@object
	.local	none
	.comm	none,1,1
	.section	.text.rattle_errno,"ax",@progbits
	.p2align	2
	.type	rattle_errno,@function
rattle_errno:
	stp	x29, x30, [sp, #-16]!
	mov	x29, sp
	bl	__errno_location
	ldr	w0, [x0]
	ldp	x29, x30, [sp], #16
	ret
.Lerrno_func_end0:
	.size	rattle_errno, .Lerrno_func_end0-rattle_errno

	.section	.text.rattle_set_errno,"ax",@progbits
	.p2align	2
	.type	rattle_set_errno,@function
rattle_set_errno:
	stp	x29, x30, [sp, #-32]!
	str	x19, [sp, #16]
	mov	x29, sp
	mov	w19, w0
	bl	__errno_location
	str	w19, [x0]
	ldr	x19, [sp, #16]
	ldp	x29, x30, [sp], #32
	ret
.Lerrno_func_end1:
	.size	rattle_set_errno, .Lerrno_func_end1-rattle_set_errno

	.globl	main
	.section	".note.GNU-stack","",@progbits

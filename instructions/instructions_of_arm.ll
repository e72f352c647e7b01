; What stands in place of functions of crates/sha_instructions/src/instructions.rt in builds for 64-bit ARM: for each
; instruction the instruction itself, and for has_instructions() and the like a question to the C library, which has the
; kernel's words at hand. Where there is no C library with getauxval(), the answer is no.

; Linux: HWCAP_SHA1 and HWCAP_SHA2 are bits 5 and 6 of AT_HWCAP, which is 16.
define internal noundef zeroext i1 @"sha_instructions::instructions::has_instructions"() {
start:
  %there = icmp ne ptr @getauxval, null
  br i1 %there, label %ask, label %answer
ask:
  %words = call i64 @getauxval(i64 16)
  %both = and i64 %words, 96
  %has = icmp eq i64 %both, 96
  %wanted = call i1 @sha_instructions_wanted()
  %uses = and i1 %has, %wanted
  br label %answer
answer:
  %result = phi i1 [ false, %start ], [ %uses, %ask ]
  ret i1 %result
}

; HWCAP_SHA3 and HWCAP_SHA512 are bits 17 and 21: code that may use the one may use the other.
define internal noundef zeroext i1 @"sha_instructions::instructions::has_instructions_of_sha_512"() {
start:
  %there = icmp ne ptr @getauxval, null
  br i1 %there, label %ask, label %answer
ask:
  %words = call i64 @getauxval(i64 16)
  %both = and i64 %words, 2228224
  %has = icmp eq i64 %both, 2228224
  %wanted = call i1 @sha_instructions_wanted()
  %uses = and i1 %has, %wanted
  br label %answer
answer:
  %result = phi i1 [ false, %start ], [ %uses, %ask ]
  ret i1 %result
}

define internal noundef zeroext i1 @"sha_instructions::instructions::is_for_arm"() {
  ret i1 true
}

define internal void @"sha_instructions::instructions::copy"(ptr noundef %a0, ptr noundef %a1) {
  %v1 = load <4 x i32>, ptr %a1, align 4
  %result = call <4 x i32> asm "mov $0.16b, $1.16b", "=w,w"(<4 x i32> %v1)
  store <4 x i32> %result, ptr %a0, align 4
  ret void
}

define internal void @"sha_instructions::instructions::sha1c"(ptr noundef %a0, ptr noundef %a1, ptr noundef %a2, ptr noundef %a3) {
  %v1 = load <4 x i32>, ptr %a1, align 4
  %v2 = load <4 x i32>, ptr %a2, align 4
  %v3 = load <4 x i32>, ptr %a3, align 4
  %e = extractelement <4 x i32> %v2, i64 0
  %result = call <4 x i32> @llvm.aarch64.crypto.sha1c(<4 x i32> %v1, i32 %e, <4 x i32> %v3)
  store <4 x i32> %result, ptr %a0, align 4
  ret void
}

define internal void @"sha_instructions::instructions::sha1p"(ptr noundef %a0, ptr noundef %a1, ptr noundef %a2, ptr noundef %a3) {
  %v1 = load <4 x i32>, ptr %a1, align 4
  %v2 = load <4 x i32>, ptr %a2, align 4
  %v3 = load <4 x i32>, ptr %a3, align 4
  %e = extractelement <4 x i32> %v2, i64 0
  %result = call <4 x i32> @llvm.aarch64.crypto.sha1p(<4 x i32> %v1, i32 %e, <4 x i32> %v3)
  store <4 x i32> %result, ptr %a0, align 4
  ret void
}

define internal void @"sha_instructions::instructions::sha1m"(ptr noundef %a0, ptr noundef %a1, ptr noundef %a2, ptr noundef %a3) {
  %v1 = load <4 x i32>, ptr %a1, align 4
  %v2 = load <4 x i32>, ptr %a2, align 4
  %v3 = load <4 x i32>, ptr %a3, align 4
  %e = extractelement <4 x i32> %v2, i64 0
  %result = call <4 x i32> @llvm.aarch64.crypto.sha1m(<4 x i32> %v1, i32 %e, <4 x i32> %v3)
  store <4 x i32> %result, ptr %a0, align 4
  ret void
}

define internal void @"sha_instructions::instructions::sha1h"(ptr noundef %a0, ptr noundef %a1) {
  %v1 = load <4 x i32>, ptr %a1, align 4
  %a = extractelement <4 x i32> %v1, i64 0
  %rotated = call i32 @llvm.aarch64.crypto.sha1h(i32 %a)
  %result = insertelement <4 x i32> zeroinitializer, i32 %rotated, i64 0
  store <4 x i32> %result, ptr %a0, align 4
  ret void
}

define internal void @"sha_instructions::instructions::sha1su0"(ptr noundef %a0, ptr noundef %a1, ptr noundef %a2, ptr noundef %a3) {
  %v1 = load <4 x i32>, ptr %a1, align 4
  %v2 = load <4 x i32>, ptr %a2, align 4
  %v3 = load <4 x i32>, ptr %a3, align 4
  %result = call <4 x i32> @llvm.aarch64.crypto.sha1su0(<4 x i32> %v1, <4 x i32> %v2, <4 x i32> %v3)
  store <4 x i32> %result, ptr %a0, align 4
  ret void
}

define internal void @"sha_instructions::instructions::sha1su1"(ptr noundef %a0, ptr noundef %a1, ptr noundef %a2) {
  %v1 = load <4 x i32>, ptr %a1, align 4
  %v2 = load <4 x i32>, ptr %a2, align 4
  %result = call <4 x i32> @llvm.aarch64.crypto.sha1su1(<4 x i32> %v1, <4 x i32> %v2)
  store <4 x i32> %result, ptr %a0, align 4
  ret void
}

define internal void @"sha_instructions::instructions::sha256h"(ptr noundef %a0, ptr noundef %a1, ptr noundef %a2, ptr noundef %a3) {
  %v1 = load <4 x i32>, ptr %a1, align 4
  %v2 = load <4 x i32>, ptr %a2, align 4
  %v3 = load <4 x i32>, ptr %a3, align 4
  %result = call <4 x i32> @llvm.aarch64.crypto.sha256h(<4 x i32> %v1, <4 x i32> %v2, <4 x i32> %v3)
  store <4 x i32> %result, ptr %a0, align 4
  ret void
}

define internal void @"sha_instructions::instructions::sha256h2"(ptr noundef %a0, ptr noundef %a1, ptr noundef %a2, ptr noundef %a3) {
  %v1 = load <4 x i32>, ptr %a1, align 4
  %v2 = load <4 x i32>, ptr %a2, align 4
  %v3 = load <4 x i32>, ptr %a3, align 4
  %result = call <4 x i32> @llvm.aarch64.crypto.sha256h2(<4 x i32> %v1, <4 x i32> %v2, <4 x i32> %v3)
  store <4 x i32> %result, ptr %a0, align 4
  ret void
}

define internal void @"sha_instructions::instructions::sha256su0"(ptr noundef %a0, ptr noundef %a1, ptr noundef %a2) {
  %v1 = load <4 x i32>, ptr %a1, align 4
  %v2 = load <4 x i32>, ptr %a2, align 4
  %result = call <4 x i32> @llvm.aarch64.crypto.sha256su0(<4 x i32> %v1, <4 x i32> %v2)
  store <4 x i32> %result, ptr %a0, align 4
  ret void
}

define internal void @"sha_instructions::instructions::sha256su1"(ptr noundef %a0, ptr noundef %a1, ptr noundef %a2, ptr noundef %a3) {
  %v1 = load <4 x i32>, ptr %a1, align 4
  %v2 = load <4 x i32>, ptr %a2, align 4
  %v3 = load <4 x i32>, ptr %a3, align 4
  %result = call <4 x i32> @llvm.aarch64.crypto.sha256su1(<4 x i32> %v1, <4 x i32> %v2, <4 x i32> %v3)
  store <4 x i32> %result, ptr %a0, align 4
  ret void
}

define internal void @"sha_instructions::instructions::sha512h"(ptr noundef %a0, ptr noundef %a1, ptr noundef %a2, ptr noundef %a3) {
  %v1 = load <2 x i64>, ptr %a1, align 8
  %v2 = load <2 x i64>, ptr %a2, align 8
  %v3 = load <2 x i64>, ptr %a3, align 8
  %result = call <2 x i64> @llvm.aarch64.crypto.sha512h(<2 x i64> %v1, <2 x i64> %v2, <2 x i64> %v3)
  store <2 x i64> %result, ptr %a0, align 8
  ret void
}

define internal void @"sha_instructions::instructions::sha512h2"(ptr noundef %a0, ptr noundef %a1, ptr noundef %a2, ptr noundef %a3) {
  %v1 = load <2 x i64>, ptr %a1, align 8
  %v2 = load <2 x i64>, ptr %a2, align 8
  %v3 = load <2 x i64>, ptr %a3, align 8
  %result = call <2 x i64> @llvm.aarch64.crypto.sha512h2(<2 x i64> %v1, <2 x i64> %v2, <2 x i64> %v3)
  store <2 x i64> %result, ptr %a0, align 8
  ret void
}

define internal void @"sha_instructions::instructions::sha512su0"(ptr noundef %a0, ptr noundef %a1, ptr noundef %a2) {
  %v1 = load <2 x i64>, ptr %a1, align 8
  %v2 = load <2 x i64>, ptr %a2, align 8
  %result = call <2 x i64> @llvm.aarch64.crypto.sha512su0(<2 x i64> %v1, <2 x i64> %v2)
  store <2 x i64> %result, ptr %a0, align 8
  ret void
}

define internal void @"sha_instructions::instructions::sha512su1"(ptr noundef %a0, ptr noundef %a1, ptr noundef %a2, ptr noundef %a3) {
  %v1 = load <2 x i64>, ptr %a1, align 8
  %v2 = load <2 x i64>, ptr %a2, align 8
  %v3 = load <2 x i64>, ptr %a3, align 8
  %result = call <2 x i64> @llvm.aarch64.crypto.sha512su1(<2 x i64> %v1, <2 x i64> %v2, <2 x i64> %v3)
  store <2 x i64> %result, ptr %a0, align 8
  ret void
}

declare extern_weak i64 @getauxval(i64)
declare <4 x i32> @llvm.aarch64.crypto.sha1c(<4 x i32>, i32, <4 x i32>)
declare <4 x i32> @llvm.aarch64.crypto.sha1p(<4 x i32>, i32, <4 x i32>)
declare <4 x i32> @llvm.aarch64.crypto.sha1m(<4 x i32>, i32, <4 x i32>)
declare i32 @llvm.aarch64.crypto.sha1h(i32)
declare <4 x i32> @llvm.aarch64.crypto.sha1su0(<4 x i32>, <4 x i32>, <4 x i32>)
declare <4 x i32> @llvm.aarch64.crypto.sha1su1(<4 x i32>, <4 x i32>)
declare <4 x i32> @llvm.aarch64.crypto.sha256h(<4 x i32>, <4 x i32>, <4 x i32>)
declare <4 x i32> @llvm.aarch64.crypto.sha256h2(<4 x i32>, <4 x i32>, <4 x i32>)
declare <4 x i32> @llvm.aarch64.crypto.sha256su0(<4 x i32>, <4 x i32>)
declare <4 x i32> @llvm.aarch64.crypto.sha256su1(<4 x i32>, <4 x i32>, <4 x i32>)
declare <2 x i64> @llvm.aarch64.crypto.sha512h(<2 x i64>, <2 x i64>, <2 x i64>)
declare <2 x i64> @llvm.aarch64.crypto.sha512h2(<2 x i64>, <2 x i64>, <2 x i64>)
declare <2 x i64> @llvm.aarch64.crypto.sha512su0(<2 x i64>, <2 x i64>)
declare <2 x i64> @llvm.aarch64.crypto.sha512su1(<2 x i64>, <2 x i64>, <2 x i64>)

; How often each instruction stands in each function, of which a program may lack some.
; In sha_instructions::sha_1::take_blocks: sha1c 5
; In sha_instructions::sha_1::take_blocks: sha1h 20
; In sha_instructions::sha_1::take_blocks: sha1m 5
; In sha_instructions::sha_1::take_blocks: sha1p 10
; In sha_instructions::sha_1::take_blocks: sha1su0 16
; In sha_instructions::sha_1::take_blocks: sha1su1 16
; In sha_instructions::sha_1::take_blocks_of_two: sha1c 10
; In sha_instructions::sha_1::take_blocks_of_two: sha1h 40
; In sha_instructions::sha_1::take_blocks_of_two: sha1m 10
; In sha_instructions::sha_1::take_blocks_of_two: sha1p 20
; In sha_instructions::sha_1::take_blocks_of_two: sha1su0 32
; In sha_instructions::sha_1::take_blocks_of_two: sha1su1 32
; In sha_instructions::sha_256::take_blocks: sha256h 16
; In sha_instructions::sha_256::take_blocks: sha256h2 16
; In sha_instructions::sha_256::take_blocks: sha256su0 12
; In sha_instructions::sha_256::take_blocks: sha256su1 12
; In sha_instructions::sha_256::take_blocks_of_two: sha256h 32
; In sha_instructions::sha_256::take_blocks_of_two: sha256h2 32
; In sha_instructions::sha_256::take_blocks_of_two: sha256su0 24
; In sha_instructions::sha_256::take_blocks_of_two: sha256su1 24
; In sha_instructions::sha_512::take_blocks: sha512h 40
; In sha_instructions::sha_512::take_blocks: sha512h2 40
; In sha_instructions::sha_512::take_blocks: sha512su0 32
; In sha_instructions::sha_512::take_blocks: sha512su1 32

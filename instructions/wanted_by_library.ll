
; The library has no environment: what the processor answers decides.
define internal i1 @sha_instructions_wanted() alwaysinline {
  ret i1 true
}

" Vim syntax file for Souper IR: left-hand sides, right-hand sides and replacements.
if exists('b:current_syntax')
  finish
endif
setlocal iskeyword=@,48-57,_,.
syntax keyword souperLine infer result cand pc blockpc
syntax keyword souperInput var block phi reservedinst reservedconst
syntax keyword souperInstruction add addnsw addnuw addnw sub subnsw subnuw subnw mul mulnsw mulnuw mulnw
syntax keyword souperInstruction udiv sdiv udivexact sdivexact urem srem and or xor shl shlnsw shlnuw shlnw
syntax keyword souperInstruction lshr lshrexact ashr ashrexact select zext sext trunc eq ne ult slt ule sle
syntax keyword souperInstruction ctpop bswap bitreverse cttz ctlz fshl fshr extractvalue hole freeze
syntax keyword souperInstruction sadd.with.overflow uadd.with.overflow ssub.with.overflow usub.with.overflow
syntax keyword souperInstruction smul.with.overflow umul.with.overflow sadd.sat uadd.sat ssub.sat usub.sat
syntax keyword souperAttribute knownBits powerOfTwo negative nonNegative nonZero hasExternalUses signBits range
syntax keyword souperAttribute demandedBits harvestedFromUse
syntax match souperType ':i\d\+\>'
syntax match souperNumber '-\?\<\d\+\>'
syntax match souperName '%[A-Za-z0-9_.]\+'
syntax match souperComment ';.*$'
highlight default link souperLine Statement
highlight default link souperInput Type
highlight default link souperInstruction Function
highlight default link souperAttribute PreProc
highlight default link souperType Type
highlight default link souperNumber Number
highlight default link souperName Identifier
highlight default link souperComment Comment
let b:current_syntax = 'souper'

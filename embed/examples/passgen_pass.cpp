// The pass of LLVM that applies the functions that passgen prints. It is compiled with the name of their file, and visits each
// instruction once.
//
//     passgen FILE > rules.inc
//     c++ -std=c++17 -fPIC -shared -fno-rtti -fno-exceptions -DSOUPER_RULES='"rules.inc"' -I. passgen_pass.cpp -o rules.so
//     opt -load-pass-plugin=rules.so -passes=souper-rules -S FILE
#include "llvm/ADT/APInt.h"
#include "llvm/ADT/STLExtras.h"
#include "llvm/Analysis/ValueTracking.h"
#include "llvm/IR/Function.h"
#include "llvm/IR/IRBuilder.h"
#include "llvm/IR/Intrinsics.h"
#include "llvm/IR/PatternMatch.h"
#include "llvm/Passes/PassBuilder.h"
#include "llvm/Passes/PassPlugin.h"
#include "llvm/Transforms/Utils/Local.h"

#include <initializer_list>

namespace {

// What the functions call.

[[maybe_unused]] llvm::APInt number(unsigned width, std::initializer_list<std::uint64_t> words) {
    return llvm::APInt(width, llvm::ArrayRef<std::uint64_t>(words));
}

// The value; if it may be undef or poison, one value in its place.
[[maybe_unused]] llvm::Value *frozen(llvm::Value *value, llvm::IRBuilder<> &b) {
    return llvm::isGuaranteedNotToBeUndefOrPoison(value) ? value : b.CreateFreeze(value);
}

template <typename Pattern> struct OfWidth {
    unsigned width;
    Pattern pattern;

    bool match(llvm::Value *value) { return value->getType()->isIntegerTy(width) && pattern.match(value); }
};

template <typename Pattern> OfWidth<Pattern> of_width(unsigned width, Pattern pattern) {
    return {width, pattern};
}

template <typename Pattern> struct NoWrap {
    bool is_unsigned, is_signed;
    Pattern pattern;

    bool match(llvm::Value *value) {
        const auto *flags = llvm::dyn_cast<llvm::OverflowingBinaryOperator>(value);
        return flags && (!is_unsigned || flags->hasNoUnsignedWrap()) && (!is_signed || flags->hasNoSignedWrap())
            && pattern.match(value);
    }
};

template <typename Pattern> NoWrap<Pattern> no_wrap(bool is_unsigned, bool is_signed, Pattern pattern) {
    return {is_unsigned, is_signed, pattern};
}

// A comparison, or the same one with its sides swapped.
template <typename Left, typename Right> struct Compare {
    llvm::ICmpInst::Predicate predicate;
    Left left;
    Right right;

    bool match(llvm::Value *value) {
        const auto *compared = llvm::dyn_cast<llvm::ICmpInst>(value);
        if (!compared) {
            return false;
        }
        llvm::Value *a = compared->getOperand(0), *b = compared->getOperand(1);
        return (compared->getPredicate() == predicate && left.match(a) && right.match(b))
            || (compared->getSwappedPredicate() == predicate && left.match(b) && right.match(a));
    }
};

template <typename Left, typename Right>
Compare<Left, Right> compare(llvm::ICmpInst::Predicate predicate, Left left, Right right) {
    return {predicate, left, right};
}

#include SOUPER_RULES

llvm::Value *replacement_of(llvm::Instruction &instruction) {
    llvm::IRBuilder<> builder(&instruction);
    for (const auto rule : rules) {
        if (llvm::Value *value = rule ? rule(&instruction, builder) : nullptr) {
            return value;
        }
    }
    return nullptr;
}

struct Rules : llvm::PassInfoMixin<Rules> {
    llvm::PreservedAnalyses run(llvm::Function &function, llvm::FunctionAnalysisManager &) {
        bool changed = false;
        for (llvm::BasicBlock &block : function) {
            for (llvm::Instruction &instruction : block) {
                if (llvm::Value *value = instruction.use_empty() ? nullptr : replacement_of(instruction)) {
                    instruction.replaceAllUsesWith(value);
                    changed = true;
                }
            }
            for (llvm::Instruction &instruction : llvm::make_early_inc_range(llvm::reverse(block))) {
                if (changed && llvm::isInstructionTriviallyDead(&instruction)) {
                    instruction.eraseFromParent();
                }
            }
        }
        return changed ? llvm::PreservedAnalyses::none() : llvm::PreservedAnalyses::all();
    }
};

void add_pass(llvm::PassBuilder &builder) {
    builder.registerPipelineParsingCallback([](llvm::StringRef name, llvm::FunctionPassManager &passes, auto) {
        if (name != "souper-rules") {
            return false;
        }
        passes.addPass(Rules());
        return true;
    });
}

} // namespace

extern "C" LLVM_ATTRIBUTE_WEAK llvm::PassPluginLibraryInfo llvmGetPassPluginInfo() {
    return {LLVM_PLUGIN_API_VERSION, "souper-rules", "1", add_pass};
}

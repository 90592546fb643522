// An LLVM pass: a left-hand side for each integer instruction of a function that Souper IR has, in canonical text. It is compiled
// as LLVM itself, without exceptions and RTTI.
//
// Path conditions are left out, and arguments, loads, calls, phis, undefined values and what lies deeper than 16 instructions are
// variables: what holds of such a left-hand side holds of the instruction, but not the other way around.
//
//     opt -load-pass-plugin=extract.so -passes=souper-extract -disable-output FILE
#include "souper.hpp"

#include "llvm/ADT/DenseMap.h"
#include "llvm/ADT/SmallVector.h"
#include "llvm/IR/Constants.h"
#include "llvm/IR/Dominators.h"
#include "llvm/IR/Function.h"
#include "llvm/IR/InstIterator.h"
#include "llvm/IR/InstrTypes.h"
#include "llvm/IR/Instructions.h"
#include "llvm/IR/IntrinsicInst.h"
#include "llvm/IR/Operator.h"
#include "llvm/Passes/PassBuilder.h"
#include "llvm/Passes/PassPlugin.h"
#include "llvm/Support/raw_ostream.h"

namespace {

using llvm::Instruction;
using llvm::Value;
using souper::op;

// An instruction in Souper IR.
struct Translation {
    op operation;
    llvm::SmallVector<Value *, 3> operands;
};

bool is_integer(const Value *value) {
    constexpr unsigned most = 65535;
    return value->getType()->isIntegerTy() && value->getType()->getIntegerBitWidth() <= most;
}

op wrapping(const Instruction &instruction, op plain, op nsw, op nuw, op nw) {
    const auto &flags = llvm::cast<llvm::OverflowingBinaryOperator>(instruction);
    return flags.hasNoSignedWrap() ? (flags.hasNoUnsignedWrap() ? nw : nsw) : flags.hasNoUnsignedWrap() ? nuw : plain;
}

op exact(const Instruction &instruction, op plain, op exact) {
    return llvm::cast<llvm::PossiblyExactOperator>(instruction).isExact() ? exact : plain;
}

llvm::Optional<op> operation_of(const llvm::BinaryOperator &instruction) {
    switch (instruction.getOpcode()) {
    case Instruction::Add:
        return wrapping(instruction, op::add, op::addnsw, op::addnuw, op::addnw);
    case Instruction::Sub:
        return wrapping(instruction, op::sub, op::subnsw, op::subnuw, op::subnw);
    case Instruction::Mul:
        return wrapping(instruction, op::mul, op::mulnsw, op::mulnuw, op::mulnw);
    case Instruction::Shl:
        return wrapping(instruction, op::shl, op::shlnsw, op::shlnuw, op::shlnw);
    case Instruction::UDiv:
        return exact(instruction, op::udiv, op::udivexact);
    case Instruction::SDiv:
        return exact(instruction, op::sdiv, op::sdivexact);
    case Instruction::LShr:
        return exact(instruction, op::lshr, op::lshrexact);
    case Instruction::AShr:
        return exact(instruction, op::ashr, op::ashrexact);
    case Instruction::URem:
        return op::urem;
    case Instruction::SRem:
        return op::srem;
    case Instruction::And:
        return op::and_;
    case Instruction::Or:
        return op::or_;
    case Instruction::Xor:
        return op::xor_;
    default:
        return llvm::None;
    }
}

// Souper IR has no comparison for `greater`, whose operands are swapped.
llvm::Optional<Translation> comparison(const llvm::ICmpInst &instruction) {
    Value *a = instruction.getOperand(0), *b = instruction.getOperand(1);
    switch (instruction.getPredicate()) {
    case llvm::ICmpInst::ICMP_EQ:
        return Translation{op::eq, {a, b}};
    case llvm::ICmpInst::ICMP_NE:
        return Translation{op::ne, {a, b}};
    case llvm::ICmpInst::ICMP_ULT:
        return Translation{op::ult, {a, b}};
    case llvm::ICmpInst::ICMP_ULE:
        return Translation{op::ule, {a, b}};
    case llvm::ICmpInst::ICMP_UGT:
        return Translation{op::ult, {b, a}};
    case llvm::ICmpInst::ICMP_UGE:
        return Translation{op::ule, {b, a}};
    case llvm::ICmpInst::ICMP_SLT:
        return Translation{op::slt, {a, b}};
    case llvm::ICmpInst::ICMP_SLE:
        return Translation{op::sle, {a, b}};
    case llvm::ICmpInst::ICMP_SGT:
        return Translation{op::slt, {b, a}};
    case llvm::ICmpInst::ICMP_SGE:
        return Translation{op::sle, {b, a}};
    default:
        return llvm::None;
    }
}

// Of an intrinsic function the first operands; a flag of cttz and ctlz comes after them. With it the result for 0 is poison, so
// the left-hand side is defined more often than the instruction.
llvm::Optional<Translation> intrinsic(const llvm::IntrinsicInst &instruction) {
    Value *a = instruction.arg_empty() ? nullptr : instruction.getArgOperand(0);
    const auto two = [&](op operation) { return Translation{operation, {a, instruction.getArgOperand(1)}}; };
    const auto three = [&](op operation) {
        return Translation{operation, {a, instruction.getArgOperand(1), instruction.getArgOperand(2)}};
    };
    switch (instruction.getIntrinsicID()) {
    case llvm::Intrinsic::ctpop:
        return Translation{op::ctpop, {a}};
    case llvm::Intrinsic::bswap:
        return Translation{op::bswap, {a}};
    case llvm::Intrinsic::bitreverse:
        return Translation{op::bitreverse, {a}};
    case llvm::Intrinsic::cttz:
        return Translation{op::cttz, {a}};
    case llvm::Intrinsic::ctlz:
        return Translation{op::ctlz, {a}};
    case llvm::Intrinsic::fshl:
        return three(op::fshl);
    case llvm::Intrinsic::fshr:
        return three(op::fshr);
    case llvm::Intrinsic::sadd_sat:
        return two(op::sadd_sat);
    case llvm::Intrinsic::uadd_sat:
        return two(op::uadd_sat);
    case llvm::Intrinsic::ssub_sat:
        return two(op::ssub_sat);
    case llvm::Intrinsic::usub_sat:
        return two(op::usub_sat);
    default:
        return llvm::None;
    }
}

llvm::Optional<Translation> plain_translation(const Instruction &instruction) {
    if (const auto *binary = llvm::dyn_cast<llvm::BinaryOperator>(&instruction)) {
        const auto operation = operation_of(*binary);
        return operation ? llvm::Optional<Translation>(Translation{*operation, {binary->getOperand(0), binary->getOperand(1)}})
                         : llvm::None;
    }
    if (const auto *compared = llvm::dyn_cast<llvm::ICmpInst>(&instruction)) {
        return comparison(*compared);
    }
    if (const auto *called = llvm::dyn_cast<llvm::IntrinsicInst>(&instruction)) {
        return intrinsic(*called);
    }
    switch (instruction.getOpcode()) {
    case Instruction::Select:
        return Translation{op::select, {instruction.getOperand(0), instruction.getOperand(1), instruction.getOperand(2)}};
    case Instruction::ZExt:
        return Translation{op::zext, {instruction.getOperand(0)}};
    case Instruction::SExt:
        return Translation{op::sext, {instruction.getOperand(0)}};
    case Instruction::Trunc:
        return Translation{op::trunc, {instruction.getOperand(0)}};
    case Instruction::Freeze:
        return Translation{op::freeze, {instruction.getOperand(0)}};
    default:
        return llvm::None;
    }
}

// None if an operand or the result is no integer of a width that Souper IR has.
llvm::Optional<Translation> translation(const Instruction &instruction) {
    auto translated = plain_translation(instruction);
    return translated && is_integer(&instruction) && llvm::all_of(translated->operands, is_integer) ? translated : llvm::None;
}

// A constant of at most 128 bits.
llvm::Optional<souper::constant> constant(const Value *value) {
    const auto *integer = llvm::dyn_cast<llvm::ConstantInt>(value);
    if (!integer || integer->getValue().getMinSignedBits() > 128) {
        return llvm::None;
    }
    const llvm::APInt bits = integer->getValue().sextOrTrunc(128);
    const auto high = static_cast<souper::int128>(static_cast<std::int64_t>(bits.extractBitsAsZExtValue(64, 64)));
    const auto low = static_cast<souper::int128>(bits.extractBitsAsZExtValue(64, 0));
    return souper::constant{high * (souper::int128(1) << 64) + low, integer->getBitWidth()};
}

// Builds the left-hand side of one instruction. It lies in a block that is reached, so that no instruction but a phi uses itself.
class LeftHandSide {
public:
    static souper::item of(const Instruction &root, const Translation &translated) {
        LeftHandSide lhs;
        const souper::id id = lhs.inst(root, translated, 0);
        return lhs.builder.infer(id);
    }

private:
    souper::operand operand(const Value *value, unsigned depth) {
        if (const auto number = constant(value)) {
            return *number;
        }
        const auto known = ids.find(value);
        if (known != ids.end()) {
            return known->second;
        }
        constexpr unsigned deepest = 16;
        const auto *instruction = llvm::dyn_cast<Instruction>(value);
        const auto translated = instruction && depth < deepest ? translation(*instruction) : llvm::None;
        const souper::id id =
            translated ? inst(*instruction, *translated, depth) : builder.var({}, value->getType()->getIntegerBitWidth());
        ids.try_emplace(value, id);
        return id;
    }

    souper::id inst(const Instruction &instruction, const Translation &translated, unsigned depth) {
        std::vector<souper::operand> operands;
        for (const Value *used : translated.operands) {
            operands.push_back(operand(used, depth + 1));
        }
        return builder.inst(translated.operation, std::move(operands), {}, instruction.getType()->getIntegerBitWidth());
    }

    souper::builder builder;
    llvm::DenseMap<const Value *, souper::id> ids;
};

struct Extract : llvm::PassInfoMixin<Extract> {
    llvm::PreservedAnalyses run(llvm::Function &function, llvm::FunctionAnalysisManager &analyses) {
        const auto &tree = analyses.getResult<llvm::DominatorTreeAnalysis>(function);
        llvm::outs() << "; left-hand sides of the function " << function.getName() << "; path conditions are left out\n";
        for (const Instruction &instruction : llvm::instructions(function)) {
            const auto translated = translation(instruction);
            if (translated && tree.isReachableFromEntry(instruction.getParent())) {
                print(instruction, LeftHandSide::of(instruction, *translated));
            }
        }
        return llvm::PreservedAnalyses::all();
    }

private:
    static void print(const Instruction &instruction, const souper::item &lhs) {
        std::string text;
        souper::error error;
        if (souper::try_write(lhs, text, error)) {
            llvm::outs() << ";" << instruction << "\n" << text;
        } else {
            llvm::errs() << "no left-hand side of" << instruction << ": " << souper::to_string(error) << "\n";
        }
    }
};

void add_pass(llvm::PassBuilder &builder) {
    builder.registerPipelineParsingCallback([](llvm::StringRef name, llvm::FunctionPassManager &passes, auto) {
        if (name != "souper-extract") {
            return false;
        }
        passes.addPass(Extract());
        return true;
    });
}

} // namespace

extern "C" LLVM_ATTRIBUTE_WEAK llvm::PassPluginLibraryInfo llvmGetPassPluginInfo() {
    return {LLVM_PLUGIN_API_VERSION, "souper-extract", "1", add_pass};
}

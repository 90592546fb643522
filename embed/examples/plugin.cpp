// An LLVM pass: of each function, the canonical left-hand sides of its additions of a constant, each with how often it occurs.
// It is compiled with exceptions, which LLVM's own flags leave out, and lets none through LLVM.
//
//   opt -load-pass-plugin=plugin.so -passes=souper-keys -disable-output FILE
#include "souper.hpp"

#include "llvm/ADT/SmallString.h"
#include "llvm/IR/Constants.h"
#include "llvm/IR/Function.h"
#include "llvm/IR/InstrTypes.h"
#include "llvm/IR/InstIterator.h"
#include "llvm/Passes/PassBuilder.h"
#include "llvm/Passes/PassPlugin.h"
#include "llvm/Support/raw_ostream.h"

#include <exception>
#include <map>
#include <string>

namespace {

std::string left_hand_side(unsigned width, llvm::StringRef constant) {
    const std::string type = ":i" + std::to_string(width);
    return "%x" + type + " = var %y" + type + " = add %x, " + constant.str() + type + " infer %y";
}

struct Keys : llvm::PassInfoMixin<Keys> {
    llvm::PreservedAnalyses run(llvm::Function &function, llvm::FunctionAnalysisManager &) {
        std::map<std::string, unsigned> seen;
        for (llvm::Instruction &instruction : llvm::instructions(function)) {
            const auto *add = llvm::dyn_cast<llvm::BinaryOperator>(&instruction);
            if (!add || add->getOpcode() != llvm::Instruction::Add) {
                continue;
            }
            const auto *constant = llvm::dyn_cast<llvm::ConstantInt>(add->getOperand(1));
            if (!constant) {
                continue;
            }
            llvm::SmallString<32> digits;
            constant->getValue().toStringSigned(digits);
            try {
                seen[souper::format(souper::kind::lhs, left_hand_side(constant->getBitWidth(), digits))]++;
            } catch (const std::exception &error) {
                llvm::errs() << error.what() << "\n";
            }
        }
        for (const auto &[key, count] : seen) {
            llvm::outs() << count << " of\n" << key;
        }
        return llvm::PreservedAnalyses::all();
    }
};

void add_pass(llvm::PassBuilder &builder) {
    builder.registerPipelineParsingCallback([](llvm::StringRef name, llvm::FunctionPassManager &passes, auto) {
        if (name != "souper-keys") {
            return false;
        }
        passes.addPass(Keys());
        return true;
    });
}

} // namespace

extern "C" LLVM_ATTRIBUTE_WEAK llvm::PassPluginLibraryInfo llvmGetPassPluginInfo() {
    return {LLVM_PLUGIN_API_VERSION, "souper-keys", "1", add_pass};
}

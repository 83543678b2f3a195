// Prints words of the JDK's own SplitMix64, java.util.SplittableRandom, to compare the counter generator with.
// One line a word, SEED PLACE WORD: the seed and the place in decimal, the word in 16 hex digits.
// The JDK adds the step before it mixes, so its word number k is the word at place k.
//
// Run:  java Words.java > vectors.txt            the words of the seeds below
//       java Words.java SEED.. > vectors.txt     the words of other seeds, from 0 to 2^64 - 1
import java.util.SplittableRandom;

class Words {
    static final int WORDS_OF_A_SEED = 128;

    static final String[] SEEDS = {
        "0",
        "1",
        "2",
        "42",
        "11400714819323198485",
        "81985529216486895",
        "9223372036854775807",
        "9223372036854775808",
        "18364758544493064720",
        "18446744073709551615",
    };

    public static void main(String[] args) {
        StringBuilder lines = new StringBuilder();
        for (String text : args.length > 0 ? args : SEEDS) {
            long seed = Long.parseUnsignedLong(text);
            SplittableRandom random = new SplittableRandom(seed);
            for (int place = 1; place <= WORDS_OF_A_SEED; place++) {
                lines.append(String.format("%s %d %016x\n", Long.toUnsignedString(seed), place, random.nextLong()));
            }
        }
        System.out.print(lines);
    }
}

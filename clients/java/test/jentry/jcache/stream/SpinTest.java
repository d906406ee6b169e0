package jentry.jcache.stream;

import static org.junit.jupiter.api.Assertions.assertFalse;
import static org.junit.jupiter.api.Assertions.assertTrue;

import org.junit.jupiter.api.Test;

/** Tests which waits poll before they sleep. */
class SpinTest {
    private static void lookInVain(Spin spin) {
        while (spin.goesOn(false)) {
            Thread.onSpinWait();
        }
    }

    @Test void waitsThatLookInVainBecomeRare() {
        Spin spin = new Spin();
        int looked = 0;
        for (int i = 0; i < 2_000; i++) {
            if (spin.begins()) {
                looked++;
                lookInVain(spin);
            }
        }
        assertTrue(looked >= 1 && looked <= 16, looked + " waits of 2,000 looked");
    }

    @Test void aWaitThatFoundSomethingIsFollowedByOneThatLooks() {
        boolean followed = false;
        // Several attempts, because a wait that loses the processor meanwhile is followed by a second without polling.
        for (int i = 0; i < 100 && !followed; i++) {
            Spin spin = new Spin();
            followed = spin.begins() && !spin.goesOn(true) && spin.begins();
        }
        assertTrue(followed);
    }

    @Test void whoLostTheProcessorRests() throws InterruptedException {
        boolean rests = false;
        // Several attempts, because the rest is over if this thread loses the processor for a second behind it.
        for (int i = 0; i < 100 && !rests; i++) {
            Spin spin = new Spin();
            assertTrue(spin.begins());
            Thread.sleep(5);
            assertFalse(spin.goesOn(true));
            rests = !spin.begins();
        }
        assertTrue(rests);
    }
}

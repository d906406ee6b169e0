package jentry.jcache.impl;

import static org.junit.jupiter.api.Assertions.assertEquals;

import java.io.ByteArrayOutputStream;
import java.io.DataOutputStream;
import java.io.IOException;
import java.util.List;
import org.junit.jupiter.api.Test;

/** Tests the places of a refusal in code with instructions of every length. The class file has one method and only the parts that are read. */
class PlacesTest {
    private static byte[] fileOf(int... code) throws IOException {
        ByteArrayOutputStream bytes = new ByteArrayOutputStream();
        DataOutputStream out = new DataOutputStream(bytes);
        out.writeLong(0xCAFEBABE_0000_0034L);
        out.writeShort(3);
        for (String text : List.of("process", "Code")) {
            out.writeByte(1);
            out.writeUTF(text);
        }
        for (int word : new int[] {1, 0, 0, 0, 0, 1, 1, 1, 1, 1, 2}) {
            out.writeShort(word);
        }
        out.writeInt(12 + code.length);
        out.writeInt(0);
        out.writeInt(code.length);
        for (int one : code) {
            out.writeByte(one);
        }
        out.writeInt(0);
        return bytes.toByteArray();
    }

    @Test void switchesAndWideFormsArePassedOver() throws IOException {
        byte[] file = fileOf(
            3, 170, 0, 0, 0, 0, 0, 23, 0, 0, 0, 7, 0, 0, 0, 8, 0, 0, 0, 23, 0, 0, 0, 23,
            3, 171, 0, 0, 0, 0, 0, 19, 0, 0, 0, 1, 255, 255, 255, 251, 0, 0, 0, 19,
            196, 132, 1, 4, 1, 0, 196, 21, 1, 4, 87,
            200, 0, 0, 0, 5, 18, 0, 87, 177);
        assertEquals(List.of("process at 60"), Places.of(file, 17, 18));
        assertEquals(List.of("process at 54"), Places.of(file, 22, 54));
        assertEquals(List.of(), Places.of(file, 22, 53));
        assertEquals(List.of(), Places.of(file, 20, 0));
    }

    @Test void farLoopsAreFound() throws IOException {
        assertEquals(List.of("process at 1"), Places.of(fileOf(0, 200, 255, 255, 255, 255), 20, 0));
        assertEquals(List.of("process at 1"), Places.of(fileOf(0, 167, 255, 255), 20, 0));
        assertEquals(List.of(), Places.of(fileOf(0, 200, 0, 0, 0, 5, 177), 20, 0));
    }
}

<?xml version="1.0" encoding="UTF-8"?>
<!-- Writes a schema of odd as one that accepts the same documents and that libxml2 reads: patterns that match nothing
     and patterns that match only nothing are folded away (ISO/IEC 19757-2, sections 4.19 and 4.20), and so are the
     elements that no document can have, and the defines that hold nothing else.

     xsltproc tools/for-xmllint.xsl my.rng > my-xmllint.rng

     It needs the extension node-set of EXSLT, which xsltproc and Saxon have. -->
<xsl:stylesheet version="1.0" xmlns:xsl="http://www.w3.org/1999/XSL/Transform" xmlns="http://relaxng.org/ns/structure/1.0"
                xmlns:rng="http://relaxng.org/ns/structure/1.0" xmlns:exsl="http://exslt.org/common" exclude-result-prefixes="rng exsl">
  <xsl:output method="xml" encoding="UTF-8" indent="yes"/>
  <xsl:strip-space elements="*"/>
  <xsl:preserve-space elements="rng:value rng:param rng:name"/>
  <!-- the defines that hold notAllowed or empty alone -->
  <xsl:key name="folded" match="rng:define[count(*) = 1][rng:notAllowed or rng:empty]" use="@name"/>

  <xsl:template match="/">
    <xsl:call-template name="fold">
      <xsl:with-param name="grammar" select="rng:grammar"/>
    </xsl:call-template>
  </xsl:template>

  <!-- Folds a grammar, and what comes of it again, until no reference leads to a folded define. -->
  <xsl:template name="fold">
    <xsl:param name="grammar"/>
    <xsl:variable name="made">
      <xsl:apply-templates select="$grammar"/>
    </xsl:variable>
    <xsl:variable name="next" select="exsl:node-set($made)/rng:grammar"/>
    <xsl:choose>
      <xsl:when test="$next//rng:ref[key('folded', @name)]">
        <xsl:call-template name="fold">
          <xsl:with-param name="grammar" select="$next"/>
        </xsl:call-template>
      </xsl:when>
      <xsl:otherwise>
        <grammar>
          <xsl:copy-of select="$next/@*"/>
          <xsl:copy-of select="$next/*[not(self::rng:define) or not(key('folded', @name))]"/>
        </grammar>
      </xsl:otherwise>
    </xsl:choose>
  </xsl:template>

  <xsl:template match="rng:grammar">
    <grammar>
      <xsl:copy-of select="@*"/>
      <xsl:apply-templates select="*"/>
    </grammar>
  </xsl:template>

  <xsl:template match="rng:start | rng:define">
    <xsl:element name="{local-name()}">
      <xsl:copy-of select="@*"/>
      <xsl:call-template name="group"/>
    </xsl:element>
  </xsl:template>

  <!-- The patterns of a list, one after the other. -->
  <xsl:template match="rng:group" name="group">
    <xsl:param name="parts" select="*"/>
    <xsl:variable name="made">
      <xsl:apply-templates select="$parts"/>
    </xsl:variable>
    <xsl:variable name="kept" select="exsl:node-set($made)/*[not(self::rng:empty)]"/>
    <xsl:choose>
      <xsl:when test="$kept[self::rng:notAllowed]">
        <notAllowed/>
      </xsl:when>
      <xsl:when test="not($kept)">
        <empty/>
      </xsl:when>
      <xsl:when test="count($kept) = 1">
        <xsl:copy-of select="$kept"/>
      </xsl:when>
      <xsl:otherwise>
        <group>
          <xsl:copy-of select="$kept"/>
        </group>
      </xsl:otherwise>
    </xsl:choose>
  </xsl:template>

  <xsl:template match="rng:choice">
    <xsl:variable name="made">
      <xsl:apply-templates select="*"/>
    </xsl:variable>
    <xsl:variable name="kept" select="exsl:node-set($made)/*[not(self::rng:notAllowed)]"/>
    <xsl:variable name="filled" select="$kept[not(self::rng:empty)]"/>
    <xsl:choose>
      <xsl:when test="not($kept)">
        <notAllowed/>
      </xsl:when>
      <xsl:when test="not($filled)">
        <empty/>
      </xsl:when>
      <xsl:when test="count($filled) = count($kept)">
        <xsl:call-template name="either">
          <xsl:with-param name="parts" select="$filled"/>
        </xsl:call-template>
      </xsl:when>
      <xsl:otherwise>
        <optional>
          <xsl:call-template name="either">
            <xsl:with-param name="parts" select="$filled"/>
          </xsl:call-template>
        </optional>
      </xsl:otherwise>
    </xsl:choose>
  </xsl:template>

  <xsl:template name="either">
    <xsl:param name="parts"/>
    <xsl:choose>
      <xsl:when test="count($parts) = 1">
        <xsl:copy-of select="$parts"/>
      </xsl:when>
      <xsl:otherwise>
        <choice>
          <xsl:copy-of select="$parts"/>
        </choice>
      </xsl:otherwise>
    </xsl:choose>
  </xsl:template>

  <!-- What may be left out: of what matches nothing, nothing is left. -->
  <xsl:template match="rng:optional | rng:zeroOrMore | rng:oneOrMore">
    <xsl:variable name="made">
      <xsl:call-template name="group"/>
    </xsl:variable>
    <xsl:variable name="part" select="exsl:node-set($made)/*"/>
    <xsl:choose>
      <xsl:when test="$part[self::rng:empty]">
        <empty/>
      </xsl:when>
      <xsl:when test="$part[self::rng:notAllowed]">
        <xsl:choose>
          <xsl:when test="self::rng:oneOrMore">
            <notAllowed/>
          </xsl:when>
          <xsl:otherwise>
            <empty/>
          </xsl:otherwise>
        </xsl:choose>
      </xsl:when>
      <xsl:otherwise>
        <xsl:element name="{local-name()}">
          <xsl:copy-of select="$part"/>
        </xsl:element>
      </xsl:otherwise>
    </xsl:choose>
  </xsl:template>

  <xsl:template match="rng:list">
    <xsl:variable name="made">
      <xsl:call-template name="group"/>
    </xsl:variable>
    <xsl:variable name="part" select="exsl:node-set($made)/*"/>
    <xsl:choose>
      <xsl:when test="$part[self::rng:notAllowed]">
        <notAllowed/>
      </xsl:when>
      <xsl:otherwise>
        <list>
          <xsl:copy-of select="$part"/>
        </list>
      </xsl:otherwise>
    </xsl:choose>
  </xsl:template>

  <!-- A name class stays as it is: it is the attribute `name`, or the first child. What has no pattern behind it is of any text. -->
  <xsl:template match="rng:element | rng:attribute">
    <xsl:variable name="class" select="*[not(../@name)][1]"/>
    <xsl:variable name="parts" select="*[../@name or position() &gt; 1]"/>
    <xsl:variable name="made">
      <xsl:call-template name="group">
        <xsl:with-param name="parts" select="$parts"/>
      </xsl:call-template>
    </xsl:variable>
    <xsl:variable name="content" select="exsl:node-set($made)/*"/>
    <xsl:choose>
      <xsl:when test="$content[self::rng:notAllowed]">
        <notAllowed/>
      </xsl:when>
      <xsl:otherwise>
        <xsl:element name="{local-name()}">
          <xsl:copy-of select="@* | $class"/>
          <xsl:choose>
            <xsl:when test="not($parts)"/>
            <xsl:when test="$content[self::rng:group]">
              <xsl:copy-of select="$content/*"/>
            </xsl:when>
            <xsl:otherwise>
              <xsl:copy-of select="$content"/>
            </xsl:otherwise>
          </xsl:choose>
        </xsl:element>
      </xsl:otherwise>
    </xsl:choose>
  </xsl:template>

  <xsl:template match="rng:ref">
    <xsl:variable name="define" select="key('folded', @name)"/>
    <xsl:choose>
      <xsl:when test="$define">
        <xsl:copy-of select="$define/*"/>
      </xsl:when>
      <xsl:otherwise>
        <xsl:copy-of select="."/>
      </xsl:otherwise>
    </xsl:choose>
  </xsl:template>

  <xsl:template match="rng:data | rng:value | rng:text | rng:empty | rng:notAllowed">
    <xsl:copy-of select="."/>
  </xsl:template>
</xsl:stylesheet>
